"""A table of those who wait for a foe, so that the processes on a database find each other's.

search          its process, the account with its team and rating, and the room that another process has begun, or 0; the code of
                a challenge, which is empty for a search; the account that is challenged, 0 for anyone with the code, and nothing
                for a search or an acceptance; and when it ends, 0 for never
"""

import sqlalchemy as sa
from alembic import op

revision = "0003"
down_revision = "0002"


def upgrade() -> None:
    columns = {
        sa.BigInteger: ("process", "account", "since", "room", "ends"),
        sa.Text: ("format", "season", "name", "team", "code"),
        sa.Float(53): ("rating",),
        sa.Integer: ("follows",),
    }
    made = [sa.Column(name, kind, nullable=False) for kind, names in columns.items() for name in names]
    # An earlier 0002 made it. Nothing in it outlives the servers.
    op.execute("DROP TABLE IF EXISTS search")
    key = sa.PrimaryKeyConstraint("process", "account", "format", "code")
    op.create_table("search", *made, sa.Column("to", sa.BigInteger), key)
    op.create_index("search_code", "search", ["code"])
