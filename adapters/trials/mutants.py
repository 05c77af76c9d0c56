"""Adapters that break a rule, each noticed by the case that is named: file, text, what stands in its place, case."""

MUTANTS = {
    "another token for each try": (
        "joining.py", "        was_tried, self.may_stand = self.may_stand, True\n",
        "        was_tried, self.may_stand = self.may_stand, True\n        batch = batch._replace(token=secrets.token_hex(8))\n",
        ["etcd:answer_is_cut", "postgres:answer_is_cut"]),
    "a token made of the lines": (
        "joining.py", 'token = "%s-%d" % (self.run, self.asked)',
        'token = __import__("hashlib").sha256(b"".join(lines)).hexdigest()',
        ["etcd:equal_bytes", "postgres:equal_bytes", "kafka:equal_bytes"]),
    "declined where the outcome is unknown": (
        "joining.py", "        return LOST\n", "        return DECLINED\n", ["etcd:no_contact", "etcd:arrives_late", "kafka:no_contact"]),
    "behind where the outcome is unknown": (
        "joining.py", "        return LOST\n", "        return BEHIND\n", ["etcd:no_contact", "postgres:arrives_late"]),
    "a refusal that is believed at once": (
        "joining.py", "            batches, cause = self.read(), fault\n", "            return DECLINED, fault\n", ["etcd:done_and_refused"]),
    "reads of one member that may lag": (
        "join-etcd", '"limit": str(limit), **', '"limit": str(limit), "serializable": True, **', ["etcd:lagging_member"]),
    "checks that don't look": (
        "joining.py", "            return BEHIND if self.catch_up() else DECLINED if self.is_over else KEPT\n", "            return KEPT\n",
        ["etcd:checks", "kafka:checks"]),
    "an append that looks at its offset alone": (
        "join-etcd", 'self.is_value("tail", "%d %s" % (batch.first, batch.before)), ', "",
        ["etcd:what_follows_what"]),
    "reads that count all there is": (
        "join-etcd", "slot(at + MOST)", '"slot0"', ["etcd:what_follows_what"]),
    "an answer that may drip": (
        "deadline.py", "left = self.until - time.monotonic()", "left = 2", ["etcd:drips"]),
    "lines that aren't looked at": (
        "joining.py", "            if fault:\n                say(", "            if False:\n                say(", ["etcd:not_lines"]),
    "messages that aren't looked at": (
        "join-kafka", "if fault_in(batch.lines, batch.first, batch.next) is None:", "if True:", ["kafka:not_lines"]),
    "a leader that isn't looked for again": (
        "join-kafka", "            self.asker.list_topics(self.name, timeout=self.timeout)", "            pass", ["kafka:leader_moves"]),
    "rows that follow nothing": (
        "join-postgres", ",\n    FOREIGN KEY (before, before_last) REFERENCES registry_batch (token, last)", "",
        ["postgres:what_follows_what"]),
    "two rows that begin at one offset": (
        "join-postgres", "first bigint PRIMARY KEY", "first bigint", ["postgres:what_follows_what"]),
    "messages that count by their offset": (
        "join-kafka", 'self.end == (int(head["first"]), head["before"])', 'self.end[0] == int(head["first"])', ["kafka:what_follows_what"]),
    "reads of what a crash left on one server alone": (
        "join-postgres", "            self.execute(ARE_ON_BOTH)\n", "", ["postgres:second_server"]),
    "a base whose pieces may be gone": (
        "join-etcd", '[self.is_there("piece/%s/%08d" % (name, 0))] if pieces else []', "[]", ["etcd:what_follows_what"]),
    "hints that are read for though they were told": (
        "joining.py", "self.hints.popleft() not in self.told or is_news", "self.hints.popleft() != None or is_news",
        ["etcd:what_follows_what"]),
    "hints of the last batch alone": (
        "joining.py", "self.hints.popleft() not in self.told or is_news", "self.hints.popleft() not in self.told",
        ["etcd:what_follows_what"]),
    "hints that put off the look without one": (
        "joining.py", " or time.monotonic() >= self.looked + self.poll", "", ["etcd:what_follows_what"]),
    "a read that always counts as all": (
        "joining.py", "if not batches or self.store.is_all:", "if True:", ["etcd:what_follows_what"]),
    "a read that is said to be all": (
        "join-etcd", "self.is_all = batches[-1].next == following", "self.is_all = True", ["etcd:what_follows_what"]),
    "copies that aren't looked at": (
        "copies.py", " and digest_of(b\" \".join(words[:5]), data, before) == words[5]", "", ["etcd:copies"]),
    "a copy of what the store doesn't have": (
        "joining.py", "            self.insist(self.catch_up)\n        except (Anew", "            pass\n        except (Anew", ["etcd:copies"]),
    "other rules are served": (
        "joining.py", "if rules != base.rules:", "if False:", ["etcd:words_and_statuses"]),
}
