"""The bed in cells: what fits on it, and where objects go that were given no place."""
CELL = 400_000  # nanometres
COLUMNS, ROWS = 625, 525
MOST_CELLS = 2 ** 24


def cells_of(size, turn=0):
    """Columns and rows of cells of a box of this size in nanometres, after so many quarter turns."""
    columns, rows = (-(-length // CELL) for length in size[:2])
    return (rows, columns) if turn % 2 else (columns, rows)


def layers_of(height, first_layer, layer):
    """How many layers a height has: those whose middle lies below it. All in nanometres."""
    count = 0
    while (first_layer // 2 if count == 0 else first_layer + (2 * count - 1) * layer // 2) < height:
        count += 1
    return count


def is_on_bed(column, row, columns, rows):
    return 0 <= column and column + columns <= COLUMNS and 0 <= row and row + rows <= ROWS


def overlap(one, other, gap):
    """Whether two boxes (column, row, columns, rows) come nearer to each other than a gap."""
    return all(one[axis] < other[axis] + other[axis + 2] + gap and other[axis] < one[axis] + one[axis + 2] + gap for axis in (0, 1))


def stops(axis, length, taken, gap):
    """The positions along an axis at which a box may stand: the middle of the bed, and beside or in line with each taken one."""
    found = {((COLUMNS, ROWS)[axis] - length) // 2}
    for box in taken:
        first, other = box[axis], box[axis + 2]
        found |= {first - gap - length, first + other + gap, first, first + other - length, first + (other - length) // 2}
    return found


def free_place(columns, rows, taken, gap):
    """The place nearest to the middle of the bed where a box stands clear of the taken ones; None where there is none."""
    def away(place):
        return (2 * place[0] + columns - COLUMNS) ** 2 + (2 * place[1] + rows - ROWS) ** 2, place
    places = [
        (column, row)
        for column in stops(0, columns, taken, gap)
        for row in stops(1, rows, taken, gap)
        if is_on_bed(column, row, columns, rows) and not any(overlap((column, row, columns, rows), box, gap) for box in taken)
    ]
    return min(places, key=away, default=None)


def spread(boxes, taken, gap):
    """Places for boxes of (columns, rows), the largest first; None for each that finds none.

    Where nothing is taken before, all of them together stand in the middle of the bed."""
    is_bare, taken, places = not taken, list(taken), [None] * len(boxes)
    for number in sorted(range(len(boxes)), key=lambda it: (-boxes[it][0] * boxes[it][1], it)):
        columns, rows = boxes[number]
        place = free_place(columns, rows, taken, gap)
        if place:
            places[number] = place
            taken.append((*place, columns, rows))
    if is_bare and taken:
        low = [min(box[axis] for box in taken) for axis in (0, 1)]
        high = [max(box[axis] + box[axis + 2] for box in taken) for axis in (0, 1)]
        right, up = ((most - last - first) // 2 for most, first, last in zip((COLUMNS, ROWS), low, high))
        places = [place and (place[0] + right, place[1] + up) for place in places]
    return places
