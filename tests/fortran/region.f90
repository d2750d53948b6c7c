! Grows a region from Fortran: document 01's entries (0,1), (1,2), side 3, seed 0, two hops.
! It shows how the header's declarations are transcribed: a list is an array and its count by value, a record a bind(c) type with the
! header's fields in their order. Numbers without a sign pass as integers of the same size.
module hybit_matrix
  use iso_c_binding
  implicit none

  type, bind(c) :: build_answer
    integer(c_int32_t) :: number
    logical(c_bool) :: present
    integer(c_int64_t) :: expected, actual, row_words, column_words, pairs
  end type

  type, bind(c) :: growth_answer
    integer(c_int32_t) :: number
    logical(c_bool) :: present
    integer(c_int64_t) :: expected, actual
    integer(c_int64_t) :: hops_requested, hops_completed, seed_nodes, region_nodes
    integer(c_int64_t) :: frontier_nodes_visited, row_words_visited, column_words_visited
    integer(c_int64_t) :: candidate_neighbor_bits, topology_words_visited, new_nodes
  end type

  interface
    function hybit_dual_topology_from_csr32(nrows, ncols, row_ptr, row_ptr_count, col_idx, col_idx_count, &
        values, values_count, row_word_ptr, row_word_ptr_count, row_word_indices, row_word_indices_count, &
        row_masks, row_masks_count, column_word_ptr, column_word_ptr_count, column_word_indices, &
        column_word_indices_count, column_masks, column_masks_count, starts, starts_count, order, order_count) &
        bind(c) result(answer)
      import
      integer(c_size_t), value :: nrows, ncols, row_ptr_count, col_idx_count, values_count, row_word_ptr_count
      integer(c_size_t), value :: row_word_indices_count, row_masks_count, column_word_ptr_count
      integer(c_size_t), value :: column_word_indices_count, column_masks_count, starts_count, order_count
      integer(c_int32_t), intent(in) :: row_ptr(*), col_idx(*)
      real(c_double), intent(in) :: values(*)
      integer(c_int32_t) :: row_word_ptr(*), row_word_indices(*), column_word_ptr(*), column_word_indices(*)
      integer(c_int32_t) :: starts(*), order(*)
      integer(c_int64_t) :: row_masks(*), column_masks(*)
      type(build_answer) :: answer
    end function

    function hybit_grow_undirected_region(nrows, ncols, row_word_ptr, row_word_ptr_count, row_word_indices, &
        row_word_indices_count, row_masks, row_masks_count, structural_nnz, column_nrows, column_ncols, &
        column_word_ptr, column_word_ptr_count, column_word_indices, column_word_indices_count, column_masks, &
        column_masks_count, column_structural_nnz, len, words, words_count, hops, region, region_count, &
        frontier, frontier_count, scratch, scratch_count) bind(c) result(answer)
      import
      integer(c_size_t), value :: nrows, ncols, row_word_ptr_count, row_word_indices_count, row_masks_count
      integer(c_size_t), value :: structural_nnz, column_nrows, column_ncols, column_word_ptr_count
      integer(c_size_t), value :: column_word_indices_count, column_masks_count, column_structural_nnz
      integer(c_size_t), value :: len, words_count, region_count, frontier_count, scratch_count
      integer(c_int64_t), value :: hops
      integer(c_int32_t), intent(in) :: row_word_ptr(*), row_word_indices(*), column_word_ptr(*), column_word_indices(*)
      integer(c_int64_t), intent(in) :: row_masks(*), column_masks(*), words(*)
      integer(c_int64_t) :: region(*), frontier(*), scratch(*)
      type(growth_answer) :: answer
    end function
  end interface
end module

program grow
  use hybit_matrix
  implicit none
  integer(c_size_t), parameter :: side = 3, entries = 2, one = 1
  integer(c_int32_t) :: row_ptr(4) = [0, 1, 2, 2], col_idx(2) = [1, 2]
  real(c_double) :: values(2) = [1.0d0, 1.0d0]
  integer(c_int32_t) :: row_word_ptr(4), row_words(2), column_word_ptr(4), column_words(2), starts(4), order(2)
  integer(c_int64_t) :: row_masks(2), column_masks(2)
  integer(c_int64_t) :: seeds(1) = [1_c_int64_t], region(1), frontier(1), scratch(1)
  type(build_answer) :: built
  type(growth_answer) :: grown

  built = hybit_dual_topology_from_csr32(side, side, row_ptr, side + 1, col_idx, entries, values, entries, &
      row_word_ptr, side + 1, row_words, entries, row_masks, entries, &
      column_word_ptr, side + 1, column_words, entries, column_masks, entries, starts, side + 1, order, entries)
  if (built%number /= 0) stop 1
  grown = hybit_grow_undirected_region(side, side, row_word_ptr, side + 1, row_words, built%row_words, &
      row_masks, built%row_words, built%pairs, side, side, column_word_ptr, side + 1, column_words, &
      built%column_words, column_masks, built%column_words, built%pairs, side, seeds, one, 2_c_int64_t, &
      region, one, frontier, one, scratch, one)
  if (grown%number /= 0) stop 1
  call print_nodes('region', region(1))
  call print_nodes('frontier', frontier(1))
  print '(a,i0)', 'completed ', grown%hops_completed

contains

  subroutine print_nodes(name, word)
    character(*), intent(in) :: name
    integer(c_int64_t), intent(in) :: word
    integer :: node
    print '(a,64(1x,i0))', name, pack([(node, node = 0, 63)], [(btest(word, node), node = 0, 63)])
  end subroutine
end program
