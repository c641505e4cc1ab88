"""What is counted for Prometheus. No metric names a player, a room or a choice."""

from gen1 import RowKind
from prometheus_client import Counter, Gauge, Histogram

SECONDS = (0.0005, 0.001, 0.002, 0.005, 0.01, 0.02, 0.05, 0.1, 0.2, 0.5, 1, 2, 5)
ROOMS = Gauge("gen1_rooms_open", "Open rooms of this process")
CONNECTIONS = Gauge("gen1_connections", "Open sockets", ["protocol"])
SEARCHES = Gauge("gen1_searches", "Players who wait for a foe")
MESSAGES = Counter("gen1_messages_total", "Messages from clients", ["protocol"])
REFUSED = Counter("gen1_refused_total", "Requests that were refused", ["code"])
DROPPED = Counter("gen1_dropped_total", "Connections that the server closed", ["reason"])
RECONNECTS = Counter("gen1_reconnects_total", "Connections of an account that had an open room")
ROWS = Counter("gen1_rows_total", "Rows that were committed", ["kind"])
# Each kind's counter, since to look one up takes longer than to count.
ROWS_OF = {it: ROWS.labels(it.name.lower()) for it in RowKind}
PAIRS = Counter("gen1_pairs_total", "Pairs that ended")
ENDED = Counter("gen1_battles_ended_total", "Battles that ended", ["reason"])
REREAD = Counter("gen1_rooms_read_again_total", "Rooms that were read again after a failed commit")
LOST = Counter("gen1_rooms_lost_total", "Rooms that another process has taken")
FAILED = Counter("gen1_database_failures_total", "Transactions that failed")
LATENCY = Histogram("gen1_pair_seconds", "From the last choice of a pair to its messages", buckets=SECONDS)
COMMITS = Histogram("gen1_commit_seconds", "The time of a transaction", buckets=SECONDS)
BATCH = Histogram("gen1_commit_works", "Works in a transaction", buckets=(1, 2, 4, 8, 16, 32, 64, 128, 256, 512, 1024))
