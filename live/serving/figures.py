"""Figures of a gateway, in Prometheus' text form."""

BOUNDS = (0.001, 0.0025, 0.005, 0.01, 0.025, 0.05, 0.1, 0.25, 0.5, 1, 2.5, 5, 10)
COUNTED = {
    "requests": "Requests that were passed to the engine.",
    "refused": "Messages that were refused by the gateway itself.",
    "changes": "Commits that wrote.",
    "engine_starts": "Starts of the engine.",
    "slow_readers": "Connections that were dropped since they read too slowly.",
    "idle_aborts": "Transactions that were aborted since they were still while another waited.",
    "saves": "Models that were saved.",
}


class Figures:
    """Counts since the start, and how long answers took."""

    def __init__(self):
        self.counts = dict.fromkeys(COUNTED, 0)
        self.buckets, self.seconds, self.answers = [0] * len(BOUNDS), 0.0, 0

    def count(self, name):
        self.counts[name] += 1

    def answered(self, seconds):
        """Notes an answer of the engine."""
        self.seconds += seconds
        self.answers += 1
        for k, bound in enumerate(BOUNDS):
            if seconds <= bound:
                self.buckets[k] += 1
                return

    def text(self, now):
        """All figures; `now` has those that go up and down."""
        lines = []
        for name, value in now.items():
            lines += ["# TYPE cityed_%s gauge" % name, "cityed_%s %s" % (name, value)]
        for name, value in self.counts.items():
            lines += ["# HELP cityed_%s_total %s" % (name, COUNTED[name]), "# TYPE cityed_%s_total counter" % name,
                      "cityed_%s_total %d" % (name, value)]
        lines += ["# HELP cityed_answer_seconds From a request to its last answer.",
                  "# TYPE cityed_answer_seconds histogram"]
        below = 0
        for bound, some in zip(BOUNDS, self.buckets):
            below += some
            lines.append('cityed_answer_seconds_bucket{le="%s"} %d' % (bound, below))
        lines += ['cityed_answer_seconds_bucket{le="+Inf"} %d' % self.answers,
                  "cityed_answer_seconds_sum %.6f" % self.seconds, "cityed_answer_seconds_count %d" % self.answers]
        return "\n".join(lines) + "\n"
