"""A report of logs."""

import os

from .casualties import casualties_of
from .files import as_csv, as_geojson
from .logs import judge, read_log
from .page import page


class Report:
    """What logs say: their sentences with what `dsc` says of them, the casualties, and what was left out."""

    def __init__(self, program, paths):
        self.logs, self.heard, self.sentences, self.lines = [], [], 0, 0
        for path in paths:
            heard, sentences, lines = read_log(path)
            self.logs.append(os.path.basename(path))
            self.heard += heard
            self.sentences += sentences
            self.lines += lines
        judge(program, self.heard)
        self.casualties, self.left_out = casualties_of(self.heard)

    def write(self, folder):
        os.makedirs(folder, exist_ok=True)
        for name, text in (("report.html", page(self)), ("report.csv", as_csv(self)), ("report.geojson", as_geojson(self))):
            with open(os.path.join(folder, name), "w", encoding="utf-8") as file:
                file.write(text)
