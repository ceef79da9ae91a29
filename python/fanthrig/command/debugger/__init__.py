"""The debugger of ``lc3 debug``.

``commands``  what may be said to it, and what it answers
``motion``    the commands that go on and back
``looking``   the commands that tell of the machine, or alter it
``stops``     breakpoints and watches by their numbers
``names``     labels, and lines with them
``console``   keyboard and display of the program while it runs
``prompt``    commands line by line, from a terminal or a pipe
``screen``    all in one screen
"""
