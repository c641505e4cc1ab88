"""What Alembic runs: the migrations, over the connection that gen1_server.schema passes."""

from alembic import context

context.configure(connection=context.config.attributes["connection"], target_metadata=None)
with context.begin_transaction():
    context.run_migrations()
