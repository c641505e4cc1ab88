"""A ladder server for first-generation battles, over the package gen1.

Modules, from the inside out:

    clock, core        a battle of two accounts as rows; what a side may see
    ratings            Glicko-2
    schema, store      the tables; the thread that commits
    records, people    statements about rooms; about accounts
    rooms              open rooms: commit, apply, send; leases; recovery
    accounts, limits   names, passwords, tokens; how much one may ask for
    formats, lobby     teams; searches, challenges, rematches
    computer           the computer as an opponent
    connections        a socket: its limits, and what waits
    json_protocol      protocol 1, of messages.schema.json
    showdown           protocol 2, of Pokemon Showdown's server
    web                routes, start and stop
    config, metrics, keeping   operating it
"""
