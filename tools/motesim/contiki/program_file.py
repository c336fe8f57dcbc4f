"""Writes a mote program as a C file for Contiki 2.x."""
from __future__ import annotations

import re
from dataclasses import dataclass, field

from motesim.contiki.differences import header
from motesim.contiki.expressions import Expressions, Known, implied
from motesim.contiki.layout import RULE, code_lines, comment_lines, cleaned
from motesim.contiki.names import Names
from motesim.contiki.comments import Braces, Comments, CommentsOf
from motesim.contiki.use import use_of
from motesim.notation.tree import Code, Expression, Part, Program, Statement, statements_of

# The C code of a statement that waits: in a body, and in a thread.
WAITING = {'yield': ('PROCESS_YIELD()', 'PT_YIELD(pt)'),
           'yield_until': ('PROCESS_YIELD_UNTIL(%s)', 'PT_YIELD_UNTIL(pt, %s)'),
           'wait_until': ('PROCESS_WAIT_UNTIL(%s)', 'PT_WAIT_UNTIL(pt, %s)'),
           'wait_while': ('PT_WAIT_WHILE(process_pt, %s)', 'PT_WAIT_WHILE(pt, %s)'),
           'restart': ('PT_RESTART(process_pt)', 'PT_RESTART(pt)'),
           'exit': ('PROCESS_EXIT()', 'PT_EXIT(pt)'),
           'acquire': ('PT_SEM_WAIT(process_pt, &%s)', 'PT_SEM_WAIT(pt, &%s)')}
TIMER_CALLS = {'reset': 'reset', 'restart_timer': 'restart', 'stop': 'stop'}
PROCESS_CALLS = {'poll': 'process_poll(&%s)', 'start': 'process_start(&%s, NULL)', 'kill': 'process_exit(&%s)'}
WORK = 'WORK();'


def timers_of(code: Code) -> list[tuple[str, str]]:
    """The kind and the name of each timer of a code, in the order of their numbers."""
    return [('etimer', it.text) for it in code.timers] + [('ctimer', it) for it in code.named('ctimer')]


@dataclass
class Image:
    """The parts of the file that the host needs: everything that changes, and the tables of the notation's names."""
    memory: list[str] = field(default_factory=list)
    processes: list[str] = field(default_factory=list)
    # (for each declared event, its name and the C name, or '')
    events: list[tuple[str, str]] = field(default_factory=list)
    # (for each timer, its prefix and the C name, or '')
    timers: list[tuple[str, str]] = field(default_factory=list)
    receiver: str = ''


class _Function:
    """The lines of one function, and whether they use `ev` and `data`."""

    def __init__(self) -> None:
        self.lines: list[str] = []
        self.uses: set[str] = set()

    def add(self, code: str, indent: str) -> None:
        self.uses |= set(re.findall(r'\b(?:ev|data)\b', code))
        self.lines += code_lines(code, indent)


class ProgramFile:
    """Writes one program. With `counts_work` each statement has a line that counts it for the host."""

    def __init__(self, name: str, program: Program, counts_work: bool):
        self.name = name
        self.program = program
        self.counts_work = counts_work
        self.use = use_of(program)
        # (the timers whose callbacks are named: by the statements that set them, or, for timers that are reset or
        # restarted, by the code that runs once)
        self.called = self.use.set_timers | (self.use.again if program.autostart else set())
        self.names = Names(program)
        self.comments = CommentsOf(program)
        self.processes = [it.text for it in program.processes]
        self.semaphores = program.semaphores
        timers = [(code, timer) for code in program.codes for _, timer in timers_of(code)]
        self.numbers = {(code.process.text, name): number for number, (code, name) in enumerate(timers)}
        self.init = self.names.helper('init_program')
        self.init_done = self.names.helper('init_done')
        self.word = self.names.helper('word_of')
        # (for each thread, the variables that it needs in addition to its pt)
        self.needs: dict[tuple[str, str], list[str]] = {}
        self.image = Image()
        self._find_image()

    def _find_image(self) -> None:
        image, program = self.image, self.program
        image.processes = [self.names.of(it) for it in self.processes]
        image.memory += image.processes
        for event in program.events:
            image.events.append((event.text, self.names.of(event.text) if event.text in self.use.names else ''))
        image.memory += [name for _, name in image.events if name]
        image.memory += [self.names.of(it) for it in self.semaphores if it in self.use.names]
        for code in program.codes:
            for variable in code.variables:
                image.memory += self._used(code, variable)
            for prefix, name in timers_of(code):
                found = self._used(code, name)
                image.memory += found
                image.timers.append((prefix, found[0] if found else ''))
            image.memory += [self.names.derived(it, 'pt') for thread in code.named('thread')
                             for it in self._used(code, thread)]
        if self._has_init():
            image.memory.append(self.init_done)
        image.receiver = self.names.of(program.receiver.text) if program.receiver else ''

    def _used(self, code: Code, name: str) -> list[str]:
        """A list with the C name of a declaration of a code; an empty list if nothing uses the declaration."""
        process = code.process.text
        return [self.names.inside(process, name)] if (process, name) in self.use.inside else []

    def _callback(self, timer: str) -> str:
        """The name of the function that a callback timer calls."""
        return self.names.derived(timer, 'callback')

    def _has_init(self) -> bool:
        return bool(self.program.autostart and self._init_lines())

    def _init_lines(self) -> list[str]:
        """The lines that must run once, before all other lines."""
        lines = ['%s = process_alloc_event();' % name for _, name in self.image.events if name]
        lines += ['PT_SEM_INIT(&%s, %d);' % (self.names.of(name), count) for name, count in self.semaphores.items()
                  if name in self.use.names]
        for process, name in sorted(self.use.again):
            cname = self.names.inside(process, name)
            lines += ['%s.p = &%s;' % (cname, self.names.of(process)), '%s.f = %s;' % (cname, self._callback(cname))]
        if self.program.receiver or 'send' in self.use.words or 'packet' in self.use.names:
            receiver = '&' + self.names.of(self.program.receiver.text) if self.program.receiver else 'NULL'
            lines.append('motesim_radio_open(%s);' % receiver)
        return lines

    def lines(self) -> list[str]:
        """The whole file."""
        functions = [self._code(code) for code in self.program.codes]
        lines = comment_lines(self.comments.of_file(), '')
        lines += header(self.name, self.use)
        lines += ['', '#include "contiki.h"', '#include "motesim_radio.h"', '']
        lines += self._declarations()
        for declared in map(self._code_declarations, self.program.codes):
            lines += declared
        lines += self._pointers_to_callbacks()
        if any(self.word + '(' in line for function in functions for line in function):
            lines += self._word_function()
        if self._has_init():
            lines += self._init_function()
        for function in functions:
            lines += function
        lines += [RULE]
        return lines + comment_lines(self.comments.above[-1], '')

    def _declarations(self) -> list[str]:
        """Events, semaphores and processes."""
        lines: list[str] = []
        for kind, word in ('process_event_t', 'event'), ('struct pt_sem', 'semaphore'):
            for it in self.program.declared:
                if it.kind == word and it.name.text in self.use.names:
                    name = self.names.of(it.name.text)
                    lines += self._declared(self.comments.of_declaration(it), 'static %s %s;' % (kind, name),
                                            it.name.text, name)
            if lines and lines[-1]:
                lines.append('')
        lines += comment_lines(self.comments.of_processes(), '')
        for process in self.processes:
            lines.append('PROCESS(%s, "%s");' % (self.names.of(process), process))
        started = ', '.join('&' + self.names.of(it) for it in self.program.starts) or 'NULL'
        return [*lines, *code_lines('AUTOSTART_PROCESSES(%s);' % started, '')]

    def _declared(self, comments: Comments, code: str, name: str, cname: str, indent: str = '') -> list[str]:
        """A declaration with its comments, and its name in the notation if the C name is another."""
        beside = list(comments.beside)
        if cname != name:
            beside.insert(0, '"%s" in the notation' % name)
        return self._with_comments(Comments(comments.above, beside), code_lines(code, indent), indent)

    def _with_comments(self, comments: Comments, lines: list[str], indent: str) -> list[str]:
        """Lines with the comments above them, and those to their right if there is room."""
        beside = ' '.join(cleaned(it) for it in comments.beside).strip()
        if beside and len(lines) == 1 and len(lines[0]) + len(beside) + 9 <= 80:
            place = max(len(lines[0]) + 2, 36)
            if place + len(beside) + 6 > 80:
                place = len(lines[0]) + 2
            lines = ['%s/* %s */' % (lines[0].ljust(place), beside)]
        elif beside:
            return comment_lines([*comments.above, *comments.beside], indent) + lines
        return comment_lines(comments.above, indent) + lines

    def _code_declarations(self, code: Code) -> list[str]:
        """The declarations of a process: its variables, its timers, and the places at which its threads wait."""
        lines: list[str] = []

        def declare(kind: str, its: str, value: str = '', comments: Comments = Comments([], [])) -> None:
            for name in self._used(code, its):
                lines.extend(self._declared(comments, 'static %s %s%s;' % (kind, name, value), its, name))

        for it in code.declared:
            number = ' = %d%s' % (it.number, 'U' if it.number > 0x7fff else '')
            is_timer = it.kind == 'etimer'
            declare('struct etimer' if is_timer else 'uint16_t', it.name.text, '' if is_timer else number,
                    self.comments.of_declaration(it))
        for timer in code.named('ctimer'):
            declare('struct ctimer', timer)
        for thread in code.named('thread'):
            for name in self._used(code, thread):
                lines.append('static struct pt %s;' % self.names.derived(name, 'pt'))
        unused = self._unused(code)
        return ['', '/* Process %s */' % code.process.text, *lines, *unused] if lines or unused else []

    def _unused(self, code: Code) -> list[str]:
        """A comment that names the declarations that a code doesn't use, with their own comments."""
        lines = []
        its = [(it.kind, it.name.text, self.comments.of_declaration(it)) for it in code.declared]
        its += [(it.kind, it.name, self.comments.of_part(it)) for it in code.parts if it.name]
        for kind, name, comments in its:
            if not self._used(code, name):
                lines += ['Not used: %s %s' % (kind, name), *comments.all]
        return comment_lines(lines, '')

    def _pointers_to_callbacks(self) -> list[str]:
        """Prototypes of the callbacks that are named before they are defined."""
        names = [self.names.inside(*it) for it in sorted(self.called)]
        return ['', *('static void %s(void *ptr);' % self._callback(it) for it in names)] if names else []

    def _word_function(self) -> list[str]:
        """The function that returns the word of any event."""
        lines = [RULE, '/* The word of an event; that of a timer or of an exited process is its number. */',
                 'static uint16_t', '%s(process_event_t ev, process_data_t data)' % self.word, '{']
        timers = [(name, number) for number, (prefix, name) in enumerate(self.image.timers)
                  if name and prefix == 'etimer']
        processes = [(name, number) for number, name in enumerate(self.image.processes)]
        for event, numbered in ('TIMER', timers), ('EXITED', processes):
            if not numbered:
                continue
            lines.append('  if(ev == PROCESS_EVENT_%s) {' % event)
            for name, number in numbered:
                lines += ['    if(data == &%s) {' % name, '      return %d;' % number, '    }']
            lines.append('  }')
        return [*lines, '  return motesim_word(ev, data);', '}']

    def _init_function(self) -> list[str]:
        lines = ['', 'static uint8_t %s;' % self.init_done, RULE,
                 '/* Done once, by the process that starts first. */', 'static void', '%s(void)' % self.init, '{',
                 '  if(!%s) {' % self.init_done, '    %s = 1;' % self.init_done]
        return [*lines, *('    ' + it for it in self._init_lines()), '  }', '}']

    def _code(self, code: Code) -> list[str]:
        """The functions of a process."""
        own = self.comments.of_code(code)
        lines = [RULE, *comment_lines(own, '')] if own else []
        for part in code.parts:
            if part.kind == 'thread' and self._used(code, part.name):
                lines += self._thread(code, part)
        for part in code.parts:
            if (code.process.text, part.name) in self.called:
                name = self.names.inside(code.process.text, part.name)
                block = self._simple(code, part, Known('timer', part.name))
                lines += [RULE, *self._said(part, name), 'static void', '%s(void *ptr)' % self._callback(name), '{',
                          '  (void)ptr;', *block.lines, '}']
        handlers = []
        for part in code.parts:
            if part.kind in ('onpoll', 'onexit'):
                event = part.kind.removeprefix('on')
                name = self.names.derived(self.names.of(code.process.text).removesuffix('_process'), event)
                block = self._simple(code, part, Known(event))
                parameters = 'process_data_t data' if 'data' in block.uses else 'void'
                lines += [RULE, *comment_lines(self.comments.of_part(part).all, ''), 'static void',
                          '%s(%s)' % (name, parameters), '{', *block.lines, '}']
                handlers.append('PROCESS_%sHANDLER(%s(%s));' % (
                    event.upper(), name, 'data' if 'data' in block.uses else ''))
        return [*lines, *self._body(code, handlers)]

    def _said(self, part: Part, name: str) -> list[str]:
        """The comments of a part, and its name in the notation if the C name is another."""
        other = [] if name == part.name else ['"%s" in the notation' % part.name]
        return comment_lines(self.comments.of_part(part).all + other, '')

    def _thread(self, code: Code, part: Part) -> list[str]:
        name = self.names.inside(code.process.text, part.name)
        block = _Function()
        _Block(self, code, block, is_thread=True).write(self.comments.in_part(code, part), '  ')
        needs = [it for it in ('ev', 'data') if it in block.uses]
        self.needs[code.process.text, part.name] = needs
        kinds = {'ev': 'process_event_t ev', 'data': 'process_data_t data'}
        parameters = ', '.join(['struct pt *pt', *(kinds[it] for it in needs)])
        return [RULE, *self._said(part, name), 'static', 'PT_THREAD(%s(%s))' % (name, parameters), '{',
                '  PT_BEGIN(pt);', '', *block.lines, '', '  PT_END(pt);', '}']

    def _simple(self, code: Code, part: Part, known: Known) -> _Function:
        """A simple block, which has its event for its whole length."""
        function = _Function()
        block = _Block(self, code, function, is_thread=False, is_simple=True)
        block.expressions.known = known
        block.expressions.has_event = False
        block.write(self.comments.in_part(code, part), '  ')
        return function

    def _body(self, code: Code, handlers: list[str]) -> list[str]:
        function, body = _Function(), code.parts[-1]
        _Block(self, code, function, is_thread=False).write(self.comments.in_part(code, body), '  ')
        lines = [RULE, *comment_lines(self.comments.of_part(body).all, ''),
                 'PROCESS_THREAD(%s, ev, data)' % self.names.of(code.process.text), '{',
                 *('  ' + it for it in handlers), '  PROCESS_BEGIN();', '']
        if self._has_init() and self.program.starts[0] == code.process.text:
            lines += ['  %s();' % self.init, '']
        return [*lines, *function.lines, *([''] if function.lines else []), '  PROCESS_END();', '}']


class _Block:
    """Writes the statements of one block of a code, with those of its inner blocks."""

    def __init__(self, file: ProgramFile, code: Code, function: _Function, is_thread: bool, is_simple: bool = False):
        self.file = file
        self.code = code
        self.function = function
        self.is_thread = is_thread
        self.is_simple = is_simple
        self.expressions = Expressions(file.names, code.process.text, file.numbers, set(code.named('ctimer')),
                                       file.processes)
        self.expressions.word = file.word

    def write(self, its: Braces, indent: str) -> None:
        first = its.first
        for statement in its.block:
            self.statement(statement, indent, first)
            first = []
        self.function.lines += comment_lines(its.last, indent)

    def statement(self, statement: Statement, indent: str, first: list[str]) -> None:
        """A statement; the first comments are above its own."""
        comments = self.file.comments.of_statement(statement)
        comments = Comments(first + comments.above, comments.beside)
        if statement.has_blocks:
            self.function.lines += comment_lines(comments.above, indent)
            self.work(indent)
            self.branch(statement, indent)
            return
        own = _Function()
        for code in self.codes(statement):
            own.add(code + ';', indent)
        written = self.file._with_comments(comments, own.lines, indent)
        at = len(written) - len(own.lines)
        # (the line that counts a unit of work is below the comments)
        work = [indent + WORK] if self.file.counts_work else []
        self.function.lines += written[:at] + work + written[at:]
        self.function.uses |= own.uses
        if statement.waits:
            self.expressions.known = self.known_after(statement)

    def work(self, indent: str) -> None:
        """Counts a unit of work."""
        if self.file.counts_work:
            self.function.lines.append(indent + WORK)

    def known_after(self, statement: Statement) -> Known | None:
        """The event that is known to be present when a waiting statement ends."""
        if statement.kind in ('yield_until', 'wait_until'):
            return implied(statement.value)
        return Known('continue') if statement.kind == 'pause' else None

    def branch(self, statement: Statement, indent: str) -> None:
        """An `if` or a `while`."""
        known = self.expressions.known
        waits = any(it.waits for it in statements_of((statement,)))
        if statement.kind == 'while' and waits and not self.is_simple:
            self.expressions.known = None
        before = self.expressions.known
        test = self.expressions.condition(statement.value).text
        self.function.add('%s(%s) {' % (statement.kind, test), indent)
        if not self.is_simple:
            self.expressions.known = implied(statement.value) or before
        for number, its in enumerate(self.file.comments.in_statement(statement)):
            if number:
                self.expressions.known = before
                self.function.lines.append(indent + '} else {')
            self.write(its, indent + '  ')
        if statement.kind == 'while':
            self.work(indent + '  ')
        self.function.lines.append(indent + '}')
        self.expressions.known = None if waits and not self.is_simple else known

    def codes(self, statement: Statement) -> list[str]:
        """A statement without blocks in C: one line, or two."""
        kind, value = statement.kind, statement.value
        if kind == '=':
            name, text = self.local(statement.name), self.expressions.loose(value).text
            # (compilers warn about an assignment of a variable to itself)
            return ['%s = %s%s' % (name, '(uint16_t)' if text == name else '', text)]
        if kind == 'print':
            return ['MOTESIM_PRINT(%s)' % self.expressions.value(value).text]
        if kind == 'send':
            return ['motesim_send(%s)' % self.expressions.loose(value).text]
        if kind in ('post', 'broadcast', 'synch'):
            return [self.posted(statement)]
        if kind in PROCESS_CALLS:
            return [PROCESS_CALLS[kind] % self.file.names.of(statement.name)]
        if kind == 'signal':
            pt = 'NULL' if self.is_simple else 'pt' if self.is_thread else 'process_pt'
            return ['PT_SEM_SIGNAL(%s, &%s)' % (pt, self.file.names.of(statement.name))]
        if kind == 'set' or kind in TIMER_CALLS:
            return [self.timed(statement)]
        return self.waited(statement)

    def local(self, name: str) -> str:
        return self.file.names.inside(self.code.process.text, name)

    def posted(self, statement: Statement) -> str:
        """A post of an event: later, or at once."""
        target = 'PROCESS_BROADCAST' if statement.kind == 'broadcast' else '&' + self.file.names.of(statement.name)
        call = 'process_post_synch' if statement.kind == 'synch' else 'process_post'
        text = '%s(%s, %s, %s)' % (call, target, self.expressions.event(statement.event), self.word(statement.value))
        return '%s = %s' % (self.local(statement.into), text) if statement.into else text

    def word(self, value: Expression | None) -> str:
        """An expression as the data of an event."""
        made = self.expressions.value(value)
        if made.text == '0':
            return 'NULL'
        return '(process_data_t)(uintptr_t)%s' % made.inside(14)

    def timed(self, statement: Statement) -> str:
        prefix, name = self.expressions.timer(statement.name)
        if statement.kind != 'set':
            return '%s_%s(&%s)' % (prefix, TIMER_CALLS[statement.kind], name)
        interval = self.expressions.value(statement.value).text
        if prefix == 'etimer':
            return 'etimer_set(&%s, %s)' % (name, interval)
        return 'ctimer_set(&%s, %s, %s, NULL)' % (name, interval, self.file.names.derived(name, 'callback'))

    def waited(self, statement: Statement) -> list[str]:
        """A statement that waits."""
        pt = 'pt' if self.is_thread else 'process_pt'
        if statement.kind == 'spawn':
            thread = self.local(statement.name)
            place = self.file.names.derived(thread, 'pt')
            given = ', '.join(['&' + place, *self.file.needs[self.code.process.text, statement.name]])
            return ['PT_SPAWN(%s, &%s, %s(%s))' % (pt, place, thread, given)]
        if statement.kind == 'pause':
            if not self.is_thread:
                return ['PROCESS_PAUSE()']
            return ['process_post(PROCESS_CURRENT(), PROCESS_EVENT_CONTINUE, NULL)',
                    'PT_YIELD_UNTIL(pt, ev == PROCESS_EVENT_CONTINUE)']
        form = WAITING[statement.kind][self.is_thread]
        if '%s' not in form:
            return [form]
        if statement.kind == 'acquire':
            return [form % self.file.names.of(statement.name)]
        before = self.expressions.known
        # (a later call has another event)
        self.expressions.known = None
        text = self.expressions.condition(statement.value).text
        self.expressions.known = before
        return [form % text]
