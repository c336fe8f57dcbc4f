"""The studio, a page for writing, running and looking at a protocol: docs/use/DEBUGGING.md.

    command   starts it             server    serves the page           session  responds to the page
    desk      the files             answers   results of a run
    examples  the first texts       shrinking  small scenarios        reference  the notation, for the pages
"""
