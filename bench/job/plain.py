"""The payroll as a plain program of Python: time sheets on standard input, pay slips on standard output, by its module `csv`. Bytes go
through as they are. It leaves out what the plain program in Rust does (main.rs)."""
import csv


def slip_of(sheet):
    """The name and the pay of a time sheet; None if it has no pay slip."""
    if len(sheet) < 3 or not sheet[1].isdecimal() or not sheet[2].isdecimal():
        return None
    hours, rate = int(sheet[1]), int(sheet[2])
    pay = hours * rate
    return None if max(hours, rate, pay) >> 64 else (sheet[0], pay)


def slips_of(sheets):
    return filter(None, map(slip_of, sheets))


def main():
    with open(0, encoding="latin-1", newline="") as given, open(1, "w", encoding="latin-1", newline="") as taken:
        csv.writer(taken, lineterminator="\n").writerows(slips_of(csv.reader(given)))


if __name__ == "__main__":
    main()
