"""What becomes of each call and reply on a connection: it is passed on, but for what goes wrong by the rules."""
import time
from collections.abc import Sequence

from nfs4tools.between.answers import error_of_rpc, first_answer, next_answer, with_xid
from nfs4tools.between.calls import Call, Change, Reply, name_of
from nfs4tools.between.links import Act, Exchange, Link, do_later, start
from nfs4tools.between.names import NOTHING
from nfs4tools.between.outcomes import Case, Missed, xid_words
from nfs4tools.between.records import Record, framed, pieces_of
from nfs4tools.between.vocabulary import Fault, STATUSES
from nfs4tools.journal.words import STATUS_NAMES
from nfs4tools.wire import Status

# What another xid differs in at first.
OTHER = 0x80000000


class Passing(Link):
    """A connection whose calls and replies meet faults."""

    # Calls.

    def take_call(self, record: Record) -> Act | None:
        call = Call(record.body, self.is_callback)
        if not self.is_callback:
            self.between.wait_for_ends(self)
        with self.between.lock:
            if self.is_over:
                self.watcher.see(self.spot, False, record.body, "lost")
                return None
            self.tale.calls += 1
            self.tale.endings.called(call, self)
            exchange = self.exchange_of(call)
            self.asked.append(exchange)
            self.has_several |= len(self.asked) > 1
            changes = self.tale.owners.changes(call) + self.between.callbacks.changes(call, self)
            return self.act_on(exchange, changes, record.sizes)

    def exchange_of(self, call: Call) -> Exchange:
        tale, again = self.tale, None
        abouts = tale.names.of_call(call, self.clients, self.target)
        self.clients = NOTHING if self.is_callback else abouts[-1].clients
        standing = next((it for it in self.asked if self.is_standing(it.call, call)), None)
        if standing is not None:
            tale.repeats.tell_standing(standing.told_case, call, self)
        else:
            self.between.end_left(call)
            again = tale.repeats.arrived(call, self)
        kept = tale.owners.kept_for(call)
        is_new = standing is None and again is None
        if is_new or again is not None and is_asked_anew(again, call):
            tale.recovery.arrived(call, abouts, self)
        case = tale.strike(call, abouts, self, kept is None) if is_new else None
        return Exchange(call, abouts, is_new and kept is None, case, None if again is None else again.case, kept)

    def act_on(self, exchange: Exchange, changes: Sequence[Change], sizes: Sequence[int]) -> Act:
        call, case = exchange.call, exchange.case
        if exchange.kept is not None:
            exchange.index = call.operations.index(call.request)
        elif case is not None and case.fault is Fault.ANSWER:
            exchange.index = 0 if case.counted.rule.is_error_of_rpc else case.index
        elif case is not None and case.fault in (Fault.LOSE_CALL, Fault.CUT_CALL, Fault.AWAY):
            return self.lose_call(case, framed(call.rewritten(changes), sizes))
        if exchange.index == 0:
            self.watcher.see(self.spot, False, call.record, "answered")
            return self.answer(exchange, 0, None)
        self.watcher.see(self.spot, False, call.record, "changed" if changes or exchange.index is not None else "")
        body = call.rewritten(changes, exchange.index)
        exchange.sent = framed(body, sizes if exchange.index is None else (0,))
        for told in (case, exchange.again):
            if told is not None and exchange.index is None:
                told.passed += 1
        self.waiting.setdefault(call.record[:4], []).append(exchange)
        return lambda: self.send(self.far, exchange.sent)

    def lose_call(self, case: Case, data: bytes) -> Act:
        """The call isn't passed on, or half of it is."""
        ended: list[Link] = [self]
        is_cut, seconds = case.fault is Fault.CUT_CALL, case.counted.rule.value
        if case.fault is Fault.AWAY and isinstance(seconds, (int, float)):
            ended = list(self.between.live)
            what = f"the call is lost; all connections are ended, for {seconds:g} s"
            self.between.away_until = time.monotonic() + seconds
        else:
            what = f"{'half of the call is passed on' if is_cut else 'the call is lost'}; the connection is ended"
        self.tale.tell_done(case, what + self.others(ended))
        self.watcher.see(self.spot, False, case.call.record, "cut" if is_cut else "lost")
        for link in ended:
            link.miss()

        def act() -> None:
            if is_cut:
                self.send(self.far, data[: len(data) // 2])
            for link in ended:
                link.shut()

        return act

    def answer(self, exchange: Exchange, index: int, before: Reply | None) -> Act:
        """Answers this operation in the server's place, after this reply to those before, or None if there are none."""
        call, case, kept = exchange.call, exchange.case, exchange.kept
        if kept is not None:
            is_same = kept.data == call.operations[index].data
            status = kept.status if is_same else int(Status.BAD_SEQID)
            self.tale.tell_kept(kept.case, name_of(STATUS_NAMES, status), is_same)
        else:
            assert case is not None
            # It is known already as one that may come again.
            self.asked.remove(exchange)
            name = self.tale.tell_answer(case, self, exchange.abouts[case.index], before)
            self.tale.endings.begin(case, self)
            if case.counted.rule.is_error_of_rpc:
                record = error_of_rpc(call, name)
                return lambda: self.deliver(exchange, record, [framed(record)], "made")
            status = STATUSES[name]
        made = first_answer(call, status) if before is None else next_answer(before, call.operations[index], status)
        return lambda: self.deliver(exchange, made, [framed(made)], "made")

    # Replies.

    def take_reply(self, record: Record) -> Act | None:
        reply = Reply(record.body, self.is_callback)
        with self.between.lock:
            if self.is_over:
                self.watcher.see(self.spot, True, record.body, "lost")
                return None
            waiting = self.waiting.get(record.body[:4])
            if not waiting:
                self.watcher.see(self.spot, True, record.body)
                return lambda: self.send(self.near, framed(*record))
            exchange = waiting.pop(0)
            if not waiting:
                del self.waiting[record.body[:4]]
            self.learn(exchange, reply)
            if exchange.index is not None:
                return self.take_before(exchange, exchange.index, record, reply)
            return self.act_on_reply(exchange, record, reply)

    def learn(self, exchange: Exchange, reply: Reply) -> None:
        """Takes notice of what the server has answered."""
        call, abouts, tale = exchange.call, exchange.abouts, self.tale
        tale.owners.learn(call, reply)
        tale.recovery.answered(call, abouts, reply, self)
        tale.names.learn(call, abouts, reply)
        if exchange.again is not None and exchange.kept is None:
            tale.repeats.compare(exchange.again, call, reply)
        if exchange.is_new and exchange.case is None:
            exchange.case = tale.strike_reply(call, abouts, self, reply)

    def take_before(self, exchange: Exchange, index: int, record: Record, reply: Reply) -> Act:
        """The operations before this one, which is answered in the server's place, were run."""
        if reply.status == Status.OK and len(reply.results) == index:
            return self.answer(exchange, index, reply)
        if exchange.kept is not None:
            self.tale.tell_before_kept(exchange.kept.case, reply)
        elif exchange.case is not None:
            self.tale.tell_before(exchange.case, reply)
        return lambda: self.deliver(exchange, record.body, [framed(*record)])

    def act_on_reply(self, exchange: Exchange, record: Record, reply: Reply) -> Act:
        case, data = exchange.case, framed(*record)
        if case is None or exchange.is_second:
            if case is not None:
                self.tale.repeats.compare(case, exchange.call, reply)
            return lambda: self.deliver(exchange, record.body, [data])
        case.reply = reply
        if case.fault in (Fault.LOSE_REPLY, Fault.CUT_REPLY):
            return self.lose_reply(case, reply, data)
        if case.fault is Fault.HOLD:
            return self.hold(exchange, case, reply, data)
        if case.fault is Fault.OTHER_XID:
            return self.change_xid(exchange, case, reply)
        if case.fault is Fault.TWICE:
            return self.call_again(exchange, case, reply)
        parts = pieces_of(record.body, int(case.counted.rule.value or 1))
        self.leave_open(case, f"the reply is given in {len(parts)} fragments", reply)
        return lambda: self.deliver(exchange, record.body, parts)

    def leave_open(self, case: Case, what: str, reply: Reply) -> None:
        """A fault is done that doesn't end the connection."""
        self.tale.tell_done(case, what, reply.words())
        self.tale.endings.begin(case, self)

    def lose_reply(self, case: Case, reply: Reply, data: bytes) -> Act:
        is_cut = case.fault is Fault.CUT_REPLY
        what = f"{'half of the reply is given' if is_cut else 'the reply is lost'}; the connection is ended"
        self.watcher.see(self.spot, True, reply.record, "cut" if is_cut else "lost")
        self.tale.tell_done(case, what + self.others([self]), reply.words())
        self.miss()

        def act() -> None:
            if is_cut:
                self.send(self.near, data[: len(data) // 2])
            self.shut()

        return act

    def hold(self, exchange: Exchange, case: Case, reply: Reply, data: bytes) -> Act:
        self.held, self.readers, seconds = self.held + 1, self.readers + 1, float(case.counted.rule.value or 0)
        self.leave_open(case, f"the reply is held for {seconds:g} s", reply)

        def act() -> None:
            self.deliver(exchange, reply.record, [data], "held")
            with self.between.lock:
                self.held -= 1
                is_last = self.is_last and not self.held
            if is_last:
                self.end()
            self.leave()

        return lambda: do_later(seconds, act)

    def change_xid(self, exchange: Exchange, case: Case, reply: Reply) -> Act:
        """The reply is given with the xid of no call that is under way, so that its call has no reply."""
        number = exchange.call.xid ^ OTHER
        while any(it.call.xid == number for it in self.asked):
            number = (number + 1) % 2**32
        what = f"the reply is given with xid {xid_words(number)} in place of {xid_words(exchange.call.xid)}"
        self.leave_open(case, what, reply)
        self.tale.repeats.miss(exchange.call, self, case)
        record = with_xid(reply.record, number)

        def act() -> None:
            self.watcher.see(self.spot, True, record, "made")
            self.send(self.near, framed(record))

        return act

    def call_again(self, exchange: Exchange, case: Case, reply: Reply) -> Act:
        exchange.is_second = True
        self.watcher.see(self.spot, True, reply.record, "lost")
        self.leave_open(case, "the call is sent again", reply)
        self.waiting.setdefault(exchange.call.record[:4], []).append(exchange)
        # By a thread of its own, so that replies go on being read meanwhile.
        return lambda: start(self.send, self.far, exchange.sent)


def is_asked_anew(missed: Missed, call: Call) -> bool:
    """Whether a call that comes again comes after its answer: after a status in the server's place, and by other bytes
    or on the connection that had it."""
    has_status = missed.case is not None and missed.case.status is not None
    return has_status and (call.record != missed.call.record or not missed.link.has_ended)
