"""What the replies mean, in words: document 01's, in checking order, and document 02's; and values in decibels."""

# Of each reply: which calls get it, and why. README's table has the same words.
REPLIES = {
    0: ("an opening, a command, a window's value, building, a search, a rough reading", 'accepted'),
    1: ('an opening', 'fewer than 576 words are lent'),
    2: ("reading a command's bytes", 'the kind byte is none of 01 to 04'),
    3: ("reading a command's bytes", 'fewer than four bytes follow where an argument is due'),
    4: ("a command, a window's value", 'nothing is opened: the session has no words'),
    5: ("a command, a window's value", 'the area that is lent is not as long as at the opening'),
    6: ("a Value, a window's value", 'the last position, 4294967295, is reached'),
    7: ('a Mark', 'no value has come yet'),
    8: ('a Mark', 'the present position is marked already'),
    9: ('a Mark', 'the mark at the present position was closed'),
    10: ('a Mark', 'as many marks are active as there is room for'),
    11: ('a Query or a Close', 'no mark is active at its position'),
    12: ('the opening of a window', 'W is not from 1 to 4096'),
    13: ('the opening of a window', 'fewer than 2 × W words are lent'),
    14: ('a search, a rough reading', "i exceeds j, or j is not below the take's length"),
    15: ('building, a search, a rough reading', 'the index is not as long as the take has blocks'),
}


def decibels(value):
    """A value, which counts in quarter decibels, in decibels."""
    return f'{"-" if value < 0 else ""}{abs(value) // 4}.{abs(value) % 4 * 25:02} dB'


def refused(number, argument, present, room):
    """Why a command is refused with this number: its argument, the present position, and how many marks there is room for, where these say more."""
    of = {
        8: f'position {present} is marked already',
        9: f'the mark at {present} was closed, and no other can stand there',
        10: f'{room} marks are active, and there is room for no more',
        11: f'no mark is active at {argument}',
    }
    return of[number] if number in of else REPLIES[number][1]
