"""The report as rows of CSV, and as points and areas of GeoJSON."""

import csv
import io
import json

from .casualties import position_of

HEAD = ("casualty", "kind", "from", "area", "nature", "latitude", "longitude", "time", "state", "first_stamp", "last_stamp", "heard", "logs", "row")


def state_of(casualty, row):
    return casualty.state(row) if row.said["kind"] == "alert" else ""


def as_csv(report):
    text = io.StringIO()
    made = csv.writer(text, lineterminator="\n")
    made.writerow(HEAD)
    for casualty in report.casualties:
        for row in casualty.rows:
            said, stamps, place = row.said, row.stamps(), position_of(row) or {}
            area = " ".join(str(said["to"]["area"][side]) for side in ("north", "west", "south", "east")) if "to" in said else ""
            made.writerow((
                said["casualty"], said["kind"], said.get("from", ""), area, said["nature"]["word"] if said["nature"] else "", place.get("latitude", ""), place.get("longitude", ""),
                said["time"] or "", state_of(casualty, row), stamps[0] if stamps else "", stamps[-1] if stamps else "", len(row.heard),
                " ".join(sorted({it.log for it in row.heard})), row.text,
            ))
    return text.getvalue()


def as_geojson(report):
    features = []
    for casualty in report.casualties:
        for row in casualty.rows:
            said, place = row.said, position_of(row)
            about = {"casualty": said["casualty"], "kind": said["kind"], "time": said["time"], "state": state_of(casualty, row) or None}
            about["nature"] = said["nature"]["word"] if said["nature"] else None
            if place:
                features.append({"type": "Feature", "geometry": {"type": "Point", "coordinates": [place["longitude"], place["latitude"]]}, "properties": about})
            if "to" in said:
                area = said["to"]["area"]
                corners = [[area["west"], area["north"]], [area["west"], area["south"]], [area["east"], area["south"]], [area["east"], area["north"]]]
                features.append({"type": "Feature", "geometry": {"type": "Polygon", "coordinates": [[*corners, corners[0]]]}, "properties": about})
    return json.dumps({"type": "FeatureCollection", "features": features}, ensure_ascii=False, indent=1) + "\n"
