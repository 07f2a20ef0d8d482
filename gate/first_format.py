"""Writes datasets in format 1, which the program reads and no longer writes."""


def write_in_format_1(path, new):
    """Reads a dataset of format 2 that `tpcc populate` has written, and writes the same tables to the file `new` in format 1. No text of
    such a dataset has a comma."""
    lines = []
    with open(path, encoding="utf-8") as source, open(new, "w", encoding="utf-8") as sink:
        for record in source:
            if record.startswith("TPCC,"):
                record = record.replace("TPCC,2,", "TPCC,1,", 1)
            elif record.startswith("O,"):
                # The first nine fields are the order's, of which the second to the fourth are the key. Each line has seven more.
                fields = record.rstrip("\n").split(",")
                key, left = ",".join(fields[1:4]), fields[9:]
                lines += [f"L,{key},{','.join(left[at : at + 7])}\n" for at in range(0, len(left), 7)]
                record = ",".join(fields[:9]) + "\n"
            elif record.startswith("END,"):
                sink.writelines(lines)
            sink.write(record)
