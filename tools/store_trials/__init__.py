"""What `tools/agree` is made of.

    rows        the folders of the row files of crates/rows/data
    made        stores that are made by chance: by the program, by the reader's own spelling, and with bytes changed
    compare     what the program and the reader say of one folder
"""
