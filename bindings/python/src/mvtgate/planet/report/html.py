"""The report's HTML, by the template report.html.jinja."""
from __future__ import annotations

import pathlib
from typing import TYPE_CHECKING, Optional

import jinja2
from markupsafe import Markup

from . import changes, views
from .listing import data_of, listing_of
from .parts import embedded, embedded_json, part, sum_of
from .texts import breakable, capital, counted, digits, prose, share_text, size_text, time_text

if TYPE_CHECKING:
    from .pictures import Pictures
    from .report import Duration, Report

_FOLDER = pathlib.Path(__file__).resolve().parent


def _environment() -> jinja2.Environment:
    environment = jinja2.Environment(
        loader=jinja2.FileSystemLoader(_FOLDER),
        autoescape=True,
        undefined=jinja2.StrictUndefined,
        trim_blocks=True,
        lstrip_blocks=True,
        keep_trailing_newline=True,
    )
    environment.filters.update(breakable=breakable, capital=capital, counted=counted, digits=digits, embedded=embedded)
    environment.filters.update(prose=prose, size=size_text, time=time_text)
    environment.globals.update(share=share_text)
    return environment


def written(report: Report, pictures: Pictures, duration: Duration, page: Optional[str]) -> str:
    """The whole text of the file."""
    script, style = part("report.js"), part("report.css")
    codes = views.codes_of(report, pictures)
    return (
        _environment()
        .get_template("report.html.jinja")
        .render(
            script=Markup(script),
            style=Markup(style),
            script_sum=sum_of(script),
            style_sum=sum_of(style),
            run=report.run,
            totals=report.totals,
            has_all=report.has_all,
            overview=views.overview_of(report, duration),
            codes=codes,
            changes=changes.changes_of(report),
            rows=views.rows_of(report),
            difference=views.difference_of(report),
            formats=views.formats_of(report),
            zooms=views.zooms_of(report),
            classes=views.classes_of(report),
            unjudged=views.unjudged_of(report),
            slowest=views.slowest_of(report),
            advice=views.advice_of(report),
            listing=listing_of(report),
            tiles_data=embedded_json(data_of(report, views.paths_of(report), views.source_names(report))),
            map_data=embedded_json(views.map_data(report, codes)),
            page_data=embedded_json({"page": page, "profile": report.run["profile"]}),
        )
    )
