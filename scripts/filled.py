"""What the scripts that print tables share: `rt fmt` puts as many short numbers of an array on a line as 100 columns hold."""
import textwrap


def filled(numbers):
    """The lines of an array of short numbers, as rt fmt lays them out."""
    words = ' '.join(f'{n},' for n in numbers)
    return textwrap.fill(words, 99, initial_indent='    ', subsequent_indent='    ')
