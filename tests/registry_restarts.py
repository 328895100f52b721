#!/usr/bin/env python3
"""What a registry says once a shard was restarted, which loses its blobs: lists ask first, and what was lost is told.

    registry_restarts.py PROGRAM
"""
import json
import signal

from harness.registry import IMAGE_PUSHED, PROXY, Repository, Site, manifest_of, push_image, restart, site_with_redis
from harness.suite import case, check, equal, main

LOST = "push it again"


def catalog(site, query=""):
    status, fields, body = site.client().ask("GET", f"/v2/_catalog{query}")
    return status == 200 and json.loads(body)["repositories"], fields.get("Link", "")


def message_of(heard):
    return heard.status, json.loads(heard.body)["errors"][0]["message"]


def lists_ask_first(site):
    """An image on each of two shards, of which one is lost."""
    (staying,), (lost,) = site.names_on_both_shards(1)
    client = site.client()
    for name in (staying, lost):
        equal(f"an image in {name}", push_image(client, name), IMAGE_PUSHED)
    equal("both are listed", catalog(site)[0], sorted([staying, lost]))
    site.shards[1].end(signal.SIGKILL)
    equal("what is away is listed", catalog(site)[0], sorted([staying, lost]))
    equal("with its tags", Repository(site, lost).tags()[0], ["one"])
    site.shards[1].start()
    equal("what was lost isn't", catalog(site)[0], [staying])
    equal("what was lost has no tags", Repository(site, lost).tags()[0], 404)
    equal("what stays has", Repository(site, staying).tags()[0], ["one"])
    for target in ("manifests/one", "tags/list"):
        status, message = message_of(client.ask("GET", f"/v2/{lost}/{target}"))
        check(f"{target} was lost", status == 404 and LOST in message, message)
    _, message = message_of(client.ask("GET", f"/v2/{staying}/manifests/two"))
    check("what was never there wasn't lost", LOST not in message, message)
    equal("it is pushed again", push_image(client, lost), IMAGE_PUSHED)
    equal("and listed", catalog(site)[0], sorted([staying, lost]))


def tags_ask_first(site):
    """Of a repository's tags those are listed whose manifests are there, also if no one of the others was asked for."""
    kept, client = Repository(site, "lib/tags"), site.client()
    equal("an image", push_image(client, kept.name), IMAGE_PUSHED)
    kept.push(b"another")
    equal("another one", kept.put("two", manifest_of(b"{}", b"another"))[0], 201)
    equal("their tags", kept.tags()[0], ["one", "two"])
    restart(site.shards[0])
    restart(site.shards[1])
    status, message = message_of(client.ask("GET", f"{kept.home}/manifests/one"))
    check("a manifest is told as lost when it is asked for first", status == 404 and LOST in message, message)
    equal("it is pushed again", push_image(client, kept.name), IMAGE_PUSHED)
    equal("its tag alone", kept.tags()[0], ["one"])


def pages_of_lost_names(site):
    """A page on which nothing is there any more leads to the next one."""
    names, client = [f"pages/app{number}" for number in range(5)], site.client()
    for name in names:
        equal(f"an image in {name}", push_image(client, name), IMAGE_PUSHED)
    for shard in site.shards:
        restart(shard)
    equal("the last is pushed again", push_image(client, names[-1]), IMAGE_PUSHED)
    found, link = catalog(site, "?n=2")
    pages = [found]
    while link:
        found, link = catalog(site, link[1:].split(">")[0].removeprefix("/v2/_catalog"))
        pages.append(found)
    equal("all pages", sum(pages, []), names[-1:])


@case(*PROXY)
def lists_ask_first_in_memory():
    with Site(2) as site:
        lists_ask_first(site)
        tags_ask_first(site)
        pages_of_lost_names(site)


@case(*PROXY, "redis-server")
def lists_ask_first_in_redis(folder):
    with site_with_redis(folder, 2) as (_, site):
        lists_ask_first(site)
        tags_ask_first(site)
        pages_of_lost_names(site)


if __name__ == "__main__":
    main(__doc__)
