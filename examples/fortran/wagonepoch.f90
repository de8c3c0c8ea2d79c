! The C interface for Fortran; include/wagonepoch.h says what each call asks for and leaves. C's unsigned words are signed here: a start of
! 32,768 reads as -32,768, and `word` gives it back.
module wagonepoch
  use, intrinsic :: iso_c_binding, only: c_int16_t, c_int32_t, c_int64_t, c_int8_t, c_size_t
  implicit none

  integer, parameter :: max_nodes = 4096, max_entries = 32768, max_unknowns = 6 * max_nodes

  interface
    function wagonepoch_rooted_levels(starts, starts_len, neighbours, neighbours_len, root, levels, levels_len, sizes, sizes_len, &
                                      figures, figures_len) bind(C) result(answer)
      import
      integer(c_int16_t), intent(in) :: starts(*), neighbours(*)
      integer(c_int16_t), value :: root
      integer(c_int16_t), intent(inout) :: levels(*), sizes(*)
      integer(c_int64_t), intent(inout) :: figures(*)
      integer(c_size_t), value :: starts_len, neighbours_len, levels_len, sizes_len, figures_len
      integer(c_int16_t) :: answer
    end function

    function wagonepoch_measures(starts, starts_len, neighbours, neighbours_len, counts, counts_len, numbering, numbering_len, &
                                 scratch, scratch_len, figures, figures_len) bind(C) result(answer)
      import
      integer(c_int16_t), intent(in) :: starts(*), neighbours(*), counts(*), numbering(*)
      integer(c_int16_t), intent(inout) :: scratch(*)
      integer(c_int64_t), intent(inout) :: figures(*)
      integer(c_size_t), value :: starts_len, neighbours_len, counts_len, numbering_len, scratch_len, figures_len
      integer(c_int16_t) :: answer
    end function

    function wagonepoch_run(starts, starts_len, neighbours, neighbours_len, counts, counts_len, numbers, numbers_len, levels, &
                            levels_len, passes, passes_len, scratch, scratch_len, figures, figures_len) bind(C) result(answer)
      import
      integer(c_int16_t), intent(in) :: starts(*), neighbours(*), counts(*)
      integer(c_int16_t), intent(inout) :: numbers(*), levels(*), passes(*), scratch(*)
      integer(c_int64_t), intent(inout) :: figures(*)
      integer(c_size_t), value :: starts_len, neighbours_len, counts_len, numbers_len, levels_len, passes_len, scratch_len, &
                                  figures_len
      integer(c_int16_t) :: answer
    end function

    function wagonepoch_reverse_cuthill_mckee(starts, starts_len, neighbours, neighbours_len, counts, counts_len, numbers, &
                                              numbers_len, levels, levels_len, passes, passes_len, scratch, scratch_len, &
                                              figures, figures_len) bind(C) result(answer)
      import
      integer(c_int16_t), intent(in) :: starts(*), neighbours(*), counts(*)
      integer(c_int16_t), intent(inout) :: numbers(*), levels(*), passes(*), scratch(*)
      integer(c_int64_t), intent(inout) :: figures(*)
      integer(c_size_t), value :: starts_len, neighbours_len, counts_len, numbers_len, levels_len, passes_len, scratch_len, &
                                  figures_len
      integer(c_int16_t) :: answer
    end function

    ! the three figures are unsigned in C; no mesh has any above 2^31
    function wagonepoch_import_numbering(starts, starts_len, neighbours, neighbours_len, counts, counts_len, pairs, pairs_len, &
                                         bandwidth, profile, front, numbers, numbers_len, scratch, scratch_len) bind(C) &
                                         result(answer)
      import
      integer(c_int16_t), intent(in) :: starts(*), neighbours(*), counts(*), pairs(*)
      integer(c_int64_t), value :: bandwidth, profile, front
      integer(c_int16_t), intent(inout) :: numbers(*), scratch(*)
      integer(c_size_t), value :: starts_len, neighbours_len, counts_len, pairs_len, numbers_len, scratch_len
      integer(c_int16_t) :: answer
    end function

    function wagonepoch_eliminate(starts, starts_len, neighbours, neighbours_len, counts, counts_len, numbering, numbering_len, &
                                  scratch, scratch_len, bytes, bytes_len, figures, figures_len) bind(C) result(answer)
      import
      integer(c_int16_t), intent(in) :: starts(*), neighbours(*), counts(*), numbering(*)
      integer(c_int16_t), intent(inout) :: scratch(*)
      integer(c_int8_t), intent(inout) :: bytes(*)
      integer(c_int64_t), intent(inout) :: figures(*)
      integer(c_size_t), value :: starts_len, neighbours_len, counts_len, numbering_len, scratch_len, bytes_len, figures_len
      integer(c_int16_t) :: answer
    end function

    function wagonepoch_store_map(starts, starts_len, neighbours, neighbours_len, counts, counts_len, numbering, numbering_len, &
                                  scratch, scratch_len, first, first_len, place, place_len, figures, figures_len) bind(C) &
                                  result(answer)
      import
      integer(c_int16_t), intent(in) :: starts(*), neighbours(*), counts(*), numbering(*)
      integer(c_int16_t), intent(inout) :: scratch(*), first(*)
      integer(c_int32_t), intent(inout) :: place(*)
      integer(c_int64_t), intent(inout) :: figures(*)
      integer(c_size_t), value :: starts_len, neighbours_len, counts_len, numbering_len, scratch_len, first_len, place_len, &
                                  figures_len
      integer(c_int16_t) :: answer
    end function

    function wagonepoch_mesh(n, elements, elements_len, starts, starts_len, neighbours, neighbours_len, scratch, scratch_len, &
                             figures, figures_len) bind(C) result(answer)
      import
      integer(c_size_t), value :: n, elements_len, starts_len, neighbours_len, scratch_len, figures_len
      integer(c_int16_t), intent(in) :: elements(*)
      integer(c_int16_t), intent(inout) :: starts(*), neighbours(*), scratch(*)
      integer(c_int64_t), intent(inout) :: figures(*)
      integer(c_int16_t) :: answer
    end function
  end interface

contains

  ! An unsigned word.
  elemental integer function word(w)
    integer(c_int16_t), intent(in) :: w
    word = iand(int(w), 65535)
  end function
end module
