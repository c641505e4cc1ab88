"""A table of those who wait for a foe, which 0003 creates again. Nothing in it outlives the servers."""

revision = "0002"
down_revision = "0001"


def upgrade() -> None:
    """Makes no table: 0003 does."""
