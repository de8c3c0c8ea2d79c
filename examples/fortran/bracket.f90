! Renumbers a mesh file, says what another order would give, how many passes each part took and where it is thickest, eliminates by the new
! numbers and opens the store, which is laid out in unknowns: examples/bracket.grd, or the file named.
! gfortran examples/fortran/wagonepoch.f90 examples/fortran/bracket.f90 target/staticlib/libcapi.a
program bracket
  use, intrinsic :: iso_c_binding, only: c_int16_t, c_int32_t, c_int64_t, c_int8_t, c_size_t
  use wagonepoch
  implicit none

  integer(c_int16_t) :: elements(32763), starts(max_nodes + 1), neighbours(max_entries), counts(max_nodes)
  integer(c_int16_t) :: numbers(max_nodes), levels(max_nodes), passes(max_nodes), rooted(max_nodes), sizes(max_nodes)
  integer(c_int16_t) :: scratch(6 * max_nodes)
  integer(c_int8_t), allocatable :: bytes(:)
  integer(c_int64_t) :: figures(7)
  ! unknowns take consecutive numbers in the order of their nodes: node p has those from begin(p) on, as many as its count says
  integer :: begin(max_nodes), unknowns
  ! the store map: row q has the places place(q) on, for the unknowns first(q) to q - 1; behind the last row comes the count of places
  integer(c_int16_t) :: first(max_unknowns)
  integer(c_int32_t) :: place(max_unknowns + 1)
  integer :: p, parts
  integer(c_size_t) :: n, words, entries, length

  call read_mesh()
  call stop_if(wagonepoch_mesh(n, elements, words, starts, size(starts, kind=c_size_t), neighbours, &
                               size(neighbours, kind=c_size_t), scratch, size(scratch, kind=c_size_t), figures, 1_c_size_t), 'mesh')
  entries = figures(1)
  numbers(1:n) = [(int(p, c_int16_t), p = 1, int(n))]
  call number_unknowns()
  print '(a,i0,a,i0,a,i0)', 'mesh: nodes ', n, ' unknowns ', unknowns, ' entries ', entries
  call print_measures('before', numbers)
  call stop_if(wagonepoch_run(starts, n + 1, neighbours, entries, counts, n, numbers, n, levels, n, passes, n, scratch, 6 * n, &
                              figures, 7_c_size_t), 'run')
  call hand_on()
  call number_unknowns()
  parts = int(figures(2))
  length = (figures(4) + 7) / 8
  call print_measures('after', numbers)
  call print_reverse()
  ! the passes of each part, parts by lowest old number: which of them the search for its ends was slow on
  print '(a,*(1x,i0))', 'passes:', passes(1:parts)
  call print_thickest()
  allocate (bytes(length))
  call stop_if(wagonepoch_eliminate(starts, n + 1, neighbours, entries, counts, n, numbers, n, scratch, n, bytes, length, &
                                    figures, 2_c_size_t), 'eliminate')
  print '(a,i0,a,i0)', 'elimination: marked ', figures(1), ' new ', figures(2)
  call stop_if(wagonepoch_store_map(starts, n + 1, neighbours, entries, counts, n, numbers, n, scratch, n, first, 6 * n, &
                                    place, 6 * n + 1, figures, 2_c_size_t), 'store map')
  call open_store()

contains

  subroutine stop_if(refusal, call_name)
    integer(c_int16_t), intent(in) :: refusal
    character(*), intent(in) :: call_name
    if (refusal == 0) return
    print '(a,a,i0)', call_name, ': refused ', refusal
    stop 1
  end subroutine

  ! The file's words after its header of 9 bytes, low byte first, as this machine has them; n is the second word of the header. In version 2 the
  ! counts of unknowns come before the elements, in version 1 each node has one.
  subroutine read_mesh()
    character(len=255) :: name
    character(len=3) :: mark
    integer(c_int16_t) :: head(3)
    integer :: unit, bytes_in_all
    name = 'examples/bracket.grd'
    if (command_argument_count() > 0) call get_command_argument(1, name)
    open (newunit=unit, file=trim(name), access='stream', form='unformatted', status='old', action='read')
    inquire (unit, size=bytes_in_all)
    call stop_unless(bytes_in_all >= 9 .and. bytes_in_all <= 65535 .and. mod(bytes_in_all, 2) == 1, name)
    read (unit) mark, head
    call stop_unless(mark == 'GRD' .and. (head(1) == 1 .or. head(1) == 2), name)
    n = word(head(2))
    words = (bytes_in_all - 9) / 2
    counts = 1
    if (head(1) == 2) then
      call stop_unless(n <= max_nodes .and. n <= words, name)
      read (unit) counts(1:n)
      words = words - n
    end if
    read (unit) elements(1:words)
    close (unit)
    call stop_unless(all(counts >= 1 .and. counts <= 6), name)
    call stop_unless(elements_read() == word(head(3)), name)
  end subroutine

  subroutine stop_unless(whole, name)
    logical, intent(in) :: whole
    character(*), intent(in) :: name
    if (whole) return
    print '(a,a)', trim(name), ' is no mesh'
    stop 1
  end subroutine

  ! How many elements the words are, to their end: the mesh call knows no such number. -1 where a kind is unknown or the last element runs past
  ! the end.
  integer function elements_read()
    integer, parameter :: node_count(10) = [2, 3, 4, 4, 5, 6, 8, 6, 8, 10]
    integer :: at
    elements_read = 0
    at = 1
    do while (at <= words)
      if (elements(at) < 1 .or. elements(at) > 10) exit
      at = at + 1 + node_count(elements(at))
      elements_read = elements_read + 1
    end do
    if (at /= words + 1) elements_read = -1
  end function

  subroutine print_measures(when, numbering)
    character(*), intent(in) :: when
    integer(c_int16_t), intent(in) :: numbering(*)
    call stop_if(wagonepoch_measures(starts, n + 1, neighbours, entries, counts, n, numbering, n, scratch, n, figures, &
                                     3_c_size_t), 'measures')
    print '(a,a,i0,a,i0,a,i0)', when, ': bandwidth ', figures(1), ' profile ', figures(2), ' front ', figures(3)
  end subroutine

  ! The run's numbers as another program would hand them on, in pairs, old number then new, and get them back.
  subroutine hand_on()
    integer(c_int16_t) :: pairs(2 * n), back(n)
    pairs(1::2) = [(int(p, c_int16_t), p = 1, int(n))]
    pairs(2::2) = numbers(1:n)
    call stop_if(wagonepoch_import_numbering(starts, n + 1, neighbours, entries, counts, n, pairs, 2 * n, figures(3), figures(4), &
                                             figures(5), back, n, scratch, n), 'import')
    if (any(back /= numbers(1:n))) stop 2
  end subroutine

  ! The order for a solver that expects reverse Cuthill-McKee, with lists of its own.
  subroutine print_reverse()
    integer(c_int16_t) :: reverse(n), from_end(n), of_search(n)
    call stop_if(wagonepoch_reverse_cuthill_mckee(starts, n + 1, neighbours, entries, counts, n, reverse, n, from_end, n, &
                                                  of_search, n, scratch, 6 * n, figures, 7_c_size_t), 'reverse Cuthill-McKee')
    call print_measures('reverse Cuthill-McKee', reverse)
  end subroutine

  ! Where the part that has number 1 is thickest, level by level from the node with that number: the first level with the most nodes.
  subroutine print_thickest()
    integer :: root, thickest
    root = findloc(numbers(1:n), 1_c_int16_t, 1)
    call stop_if(wagonepoch_rooted_levels(starts, n + 1, neighbours, entries, int(root, c_int16_t), rooted, n, sizes, n, figures, &
                                          3_c_size_t), 'rooted levels')
    thickest = maxloc(sizes(1:n), 1)
    print '(a,i0,a,i0,a,i0,a,i0)', 'levels: root ', root, ' depth ', figures(1), ' thickest ', thickest, ' nodes ', sizes(thickest)
  end subroutine

  ! The unknowns of each node, by the new numbers of the nodes.
  subroutine number_unknowns()
    integer :: at(n), q
    do p = 1, int(n)
      at(numbers(p)) = p
    end do
    unknowns = 0
    do q = 1, int(n)
      begin(at(q)) = unknowns + 1
      unknowns = unknowns + counts(at(q))
    end do
  end subroutine

  ! The mark of the pair p < q.
  integer function marked(p, q)
    integer, intent(in) :: p, q
    integer :: t
    marked = 0
    if (p < first(q)) return
    t = place(q) + p - first(q)
    marked = ibits(int(bytes(t / 8 + 1)), mod(t, 8), 1)
  end function

  ! How many pairs of an unknown of one node and a later one of another, or of the same, are marked.
  integer function marked_pairs(one, other)
    integer, intent(in) :: one, other
    integer :: i, j
    marked_pairs = 0
    do i = begin(one), begin(one) + counts(one) - 1
      do j = max(i + 1, begin(other)), begin(other) + counts(other) - 1
        marked_pairs = marked_pairs + marked(i, j)
      end do
    end do
  end function

  ! Counts the marks, and those of pairs that adjoin: of two neighbours, or of one node.
  subroutine open_store()
    integer :: q, i, ones, edges
    ones = 0
    edges = 0
    do q = 1, unknowns
      do p = first(q), q - 1
        ones = ones + marked(p, q)
      end do
    end do
    do p = 1, int(n)
      edges = edges + marked_pairs(p, p)
      do i = word(starts(p)) + 1, word(starts(p + 1))
        edges = edges + marked_pairs(p, int(neighbours(i)))
      end do
    end do
    print '(a,i0,a,i0,a,i0)', 'store: places ', place(unknowns + 1), ' marked ', ones, ' edges ', edges
  end subroutine
end program
