#!/usr/bin/env python3
"""Writes a recording of one unordered queue to standard output, a map a line as recorders write them.

usage: bench/bags.py OPERATIONS [unique|few|crashed] [sound|twice|lost] [CLIENTS] [ORDER_FILE]   (else unique, sound, 10, no such file)

Numbers are put in once each (`unique`, `crashed`) or are drawn from 100 (`few`). An operation takes effect at some time between its
invocation and its return, and a dequeue takes any member. Of `crashed`, 50 dequeues that took a member never return, and new clients come
in their place. In the end one client takes out what is left, until it finds nothing. So a recording that is `sound` is linearizable: the
operations as they took effect are a legal order, which goes to ORDER_FILE. The other two aren't: when nine tenths of the operations were
made, one member stays inside though it was taken (`twice`), or one goes that nobody took (`lost`), so a dequeue finds nothing too early.
"""
import random
import sys

CRASHES, NUMBERS = 50, 100


class Recording:
    def __init__(self, operations, how, fault, clients):
        self.operations, self.how, self.fault, self.clients = operations, how, fault, clients
        self.draw, self.time, self.count, self.invoked, self.crashed = random.Random(20261128), 3291485317, 0, 0, 0
        # (the member that is taken twice; who takes it doesn't crash, else nobody could tell)
        self.members, self.lines, self.order, self.doubled = [], [], [], None

    def put(self, process, type_, function, value):
        self.time += self.draw.randrange(1000, 900000)
        self.lines.append('{:type :%s, :f :%s, :value %s, :process %d, :time %d, :index %d}' % (
            type_, function, 'nil' if value is None else value, process, self.time, self.count))
        self.count += 1

    def is_late(self):
        return self.invoked * 10 >= self.operations * 9

    def take_effect(self, at, function, number):
        """The number that was put in or found by the operation invoked at that position."""
        if function == 'enqueue':
            self.members.append(number)
        else:
            number = self.found()
        self.order.append('%d=%s' % (at, 'done' if function == 'enqueue' else 'nil' if number is None else number))
        return number

    def found(self):
        if not self.members:
            return None
        at = self.draw.randrange(len(self.members))
        found, self.members[at] = self.members[at], self.members[-1]
        if self.fault == 'twice' and self.is_late():
            self.fault, self.members[at], self.doubled = 'sound', found, found
        else:
            self.members.pop()
        return found

    def begin(self, process):
        """An operation, mostly a dequeue where many members are inside."""
        is_enqueue = self.draw.random() < (0.5 if len(self.members) < 20 else 0.4)
        number = (self.draw.randrange(NUMBERS) if self.how == 'few' else self.invoked) if is_enqueue else None
        self.invoked += 1
        function = 'enqueue' if is_enqueue else 'dequeue'
        self.put(process, 'invoke', function, number)
        return self.count - 1, function, number, False

    def go_on(self, process, operation):
        """The client's process, and what is left of an operation that takes effect, returns or crashes."""
        at, function, number, is_done = operation
        if not is_done:
            return process, (at, function, self.take_effect(at, function, number), True)
        wanted = CRASHES * self.invoked // self.operations
        if self.how == 'crashed' and self.crashed < wanted and function == 'dequeue' and number not in (None, self.doubled):
            self.crashed += 1
            self.put(process, 'info', function, None)
            return process + self.clients, None
        self.put(process, 'ok', function, number)
        return process, None

    def lose(self):
        if self.fault == 'lost' and self.is_late() and self.members:
            self.fault = 'sound'
            self.members.pop()

    def make(self):
        processes, running = list(range(self.clients)), [None] * self.clients
        while self.invoked < self.operations or any(running):
            self.lose()
            client = self.draw.randrange(self.clients)
            if running[client]:
                processes[client], running[client] = self.go_on(processes[client], running[client])
            elif self.invoked < self.operations:
                running[client] = self.begin(processes[client])
        self.drain(processes[0])

    def drain(self, process):
        found = True
        while found is not None:
            self.put(process, 'invoke', 'dequeue', None)
            found = self.take_effect(self.count - 1, 'dequeue', None)
            self.put(process, 'ok', 'dequeue', found)


def main(words):
    if not words or not words[0].isdigit():
        print(__doc__, file=sys.stderr)
        return 2
    how, fault, clients = (words[1:] + ['unique', 'sound', '10'][len(words) - 1:])[:3]
    recording = Recording(int(words[0]), how, fault, int(clients))
    recording.make()
    sys.stdout.write('\n'.join(recording.lines) + '\n')
    if words[4:]:
        with open(words[4], 'w', encoding='ascii') as file:
            file.write(' '.join(recording.order))
    return 0


if __name__ == '__main__':
    sys.exit(main(sys.argv[1:]))
