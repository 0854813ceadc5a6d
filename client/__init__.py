"""A client of the desk for people: it enters tables and declarations, asks, and shows the desk's answers with a reading beside them.

It proves nothing. Whatever it says stands beside the desk's own lines, which it shows as they came.
"""
