"""Grapheme clusters, for the characters that the generator uses: a smaller table than Unicode's."""
import unicodedata

JOINER = "\u200d"


def clusters(text):
    """The text in pieces, each what a reader takes for one character."""
    found = []
    for letter in text:
        if found and not parts(found[-1], letter):
            found[-1] += letter
        else:
            found.append(letter)
    return found


def parts(cluster, letter):
    """Whether a new cluster begins at the letter."""
    before = cluster[-1]
    if before == "\r" and letter == "\n":
        return False
    if is_control(before) or is_control(letter):
        return True
    if letter == JOINER or unicodedata.category(letter) in ("Mn", "Me", "Mc") or "\U0001f3fb" <= letter <= "\U0001f3ff":
        return False
    if before == JOINER and is_picture(letter) and is_picture(cluster[0]):
        return False
    if is_flag_letter(before) and is_flag_letter(letter):
        return len(cluster) % 2 == 0
    return True


def is_control(letter):
    return unicodedata.category(letter) in ("Cc", "Zl", "Zp") or letter == "\u200b"


def is_picture(letter):
    return "\U0001f300" <= letter <= "\U0001faff" or letter in "❤☺"


def is_flag_letter(letter):
    return "\U0001f1e6" <= letter <= "\U0001f1ff"
