"""Tags: an answer whose first value is the number of the request on whose execution it was made. Its values read as before."""


def tagged(values, number):
    """These values with a number in place of the first: a text, a decimal or a whole number, as it was."""
    first, comma, others = values.partition(",")
    form = '"%d"' if first.startswith('"') else "%d.0" if "." in first else "%d"
    return form % number + comma + others
