"""The progress of a search, on standard error."""
from __future__ import annotations

from motesim.progress import Progress
from motesim.surveys.survey import Survey


class ProgressOfSearch(Progress):
    """The size of the sets that are tried now, and what was found with smaller ones."""

    def show_size(self, size: int, survey: Survey | None, seconds: float) -> None:
        if self.is_due():
            self.show('sets of %d, for %.1f seconds; smaller sets: %s runs, %s found' % (
                size, seconds, '{:,}'.format(survey.runs if survey else 0),
                '{:,}'.format(len({it for its in survey.sets for it in its}) if survey else 0)))
