"""The functions of crates/jb_workers that the model of its mailboxes is of: the body of each, with the step that a line is."""
import pathlib

FOLDER = pathlib.Path(__file__).resolve().parents[3] / "crates/jb_workers/src"
MARK = 9  # columns before the code of a line: the step that it is, or blanks

# Below the name of each function its body. What a line without a step does is seen by one thread alone, or by no other line: it looks and
# changes nothing, it works, it takes or gives back a part of the desk's book, or it takes memory.
LISTING = """
pool/signal.rt: give
swap     if self.state.swap(GIVEN, Ordering::SeqCst) == ASLEEP {
wake         self.state.wake_one();
         }
pool/signal.rt: wait
         self.look();
lie      self.exchange(NOT_GIVEN, ASLEEP);
         for _ in rt.forever() {
token        if self.exchange(GIVEN, NOT_GIVEN) {
                 return;
             }
park         self.state.park(rt, ASLEEP as u32);
         }
pool/signal.rt: look
         for _ in 0..LOOKS {
             if self.state.load(Ordering::SeqCst) == GIVEN {
                 return;
             }
             spin_loop();
         }
pool/signal.rt: exchange
         self.state
             .compare_exchange(from, to, Ordering::SeqCst, Ordering::SeqCst)
             .is_ok()
pool/mailbox.rt: ask
push     match self.queue.push_as::<Asking, R>(rt, end, Message::Ask(work)) {
             Ok(()) => self.asked.give(),
             Err(_) => unreachable!(),
         }
pool/mailbox.rt: hear
         self.answered.wait(rt);
pop      self.queue.try_pop_as::<Hearing>(end)
pool/mailbox.rt: take
         self.asked.wait(rt);
pop      match self.queue.try_pop_as::<Taking>(end) {
             Some(Message::Ask(work)) => Some(work),
             Some(Message::Answer(_)) | None => None,
         }
pool/mailbox.rt: answer
         match self
             .queue
push         .push_as::<Answering, R>(rt, end, Message::Answer(answer))
         {
             Ok(()) => self.answered.give(),
             Err(_) => unreachable!(),
         }
pool/mailbox.rt: is_closed
load     self.closed.load(Ordering::SeqCst)
pool/serving.rt: do_asked
         let asked = Snapshot::of(&next);
         let (answer, share) = work(desk, rt, alloc, gate, next, share);
         mailbox.answer(rt, end, asked, answer);
         share
pool/serving.rt: serve
         let mut end = end;
         let mut share = share;
         for _ in rt.forever() {
             if let Some(next) = mailbox.take(rt, &mut end) {
                 share = do_asked(desk, rt, alloc, gate, mailbox, &mut end, next, share);
             } else if mailbox.is_closed() {
                 return share;
             }
         }
         unreachable!()
pool/caller.rt: drop
         let OpenMailbox { mailbox } = self;
store    mailbox.closed.store(true, Ordering::SeqCst);
         mailbox.asked.give();
pool/caller.rt: ask
         let IdleWorker { open, mut end } = self;
         let asked = Snapshot::of(&work);
         open.mailbox.ask(rt, &mut end, work);
         BusyWorker {
             open,
             end,
             work: asked,
         }
pool/caller.rt: heard
         for _ in rt.forever() {
             match mailbox.hear(rt, end) {
                 Some(Message::Answer(answer)) => return Some(answer),
                 Some(Message::Ask(_)) => return None,
                 None => {}
             }
         }
         unreachable!()
pool/caller.rt: wait
         let BusyWorker {
             open,
             mut end,
             work,
         } = self;
         let answer = heard(rt, &open.mailbox, &mut end, &work);
         (answer, IdleWorker { open, end })
pool.rt: end
         let Pool { idle, threads } = self;
         drop(idle);
         for thread in threads {
join         let share = thread.join(rt);
             desk.give_back(rt, share);
         }
pool.rt: start_one
         let Ok((mailbox, ours, theirs)) = Mailbox::<T>::new(alloc) else {
             return Err(RoundError::Memory);
         };
         let Ok(mailbox) = Arc::new(alloc, mailbox) else {
             return Err(RoundError::Memory);
         };
         let Ok(shared) = Arc::try_clone(&mailbox) else {
             return Err(RoundError::Memory);
         };
         let Some(share) = desk.take_share(&*rt) else {
             return Err(RoundError::WorkerNotStarted);
         };
         let job = move || -> Share<L>
         { serve(&*desk, &*rt, alloc, &*gate, &shared, theirs, share) };
         match Stack::new()
             .stack_size(WORKER_STACK)
spawn        .spawn_scoped_with(scope, GivesPart, job)
         {
             Ok(thread) => Ok((IdleWorker::new(mailbox, ours), thread)),
             Err(_) => Err(RoundError::WorkerNotStarted),
         }
pool.rt: add_worker
         if pool.idle.reserve(1).is_err() || pool.threads.reserve(1).is_err() {
             return Err(RoundError::Memory);
         }
         let (worker, thread) = start_one(&*scope, &*desk, &*rt, alloc, &*gate)?;
         if pool.threads.push(thread).is_err() || pool.idle.push(worker).is_err() {
             return Err(RoundError::Memory);
         }
         Ok(())
pool.rt: start_pool
         let mut pool = Pool::empty(alloc);
         for _ in 0..workers {
             match add_worker(&*scope, &*desk, &*rt, alloc, &*gate, &mut pool) {
                 Ok(()) => {}
                 Err(RoundError::Memory) => {
                     pool.end(&*desk, &*rt);
                     return Err(RoundError::Memory);
                 }
                 Err(RoundError::WorkerNotStarted) | Err(RoundError::Refused(_)) => break,
             }
         }
         Ok(pool)
round.rt: run_round_by
         let works = in_order(works)?;
begin    if works.len().saturating_sub(1) > pool.idle.len() {
             return Err(RoundError::WorkerNotStarted);
         }
         let Some(mut parts) = self.take_parts(rt, 1) else {
             return Err(RoundError::WorkerNotStarted);
         };
         let reports = do_works(self, rt, alloc, gate, pool, works, &mut parts);
         self.put_back(rt, parts);
         let reports = reports?;
         let dones = all_done(alloc, reports)?;
         match self.close_round(rt) {
             Ok(()) => Ok(dones),
             Err(refused) => Err(RoundError::Refused(refused)),
         }
round/threads.rt: do_works
         let Some(next) = works.pop() else {
             return Ok(Vec::new(alloc));
         };
         if works.is_empty() {
             return do_here(desk, rt, alloc, gate, next, parts);
         }
         let lane = next.lane;
         let Some(worker) = pool.idle.pop() else {
             unreachable!();
         };
         let asked = worker.ask(rt, next);
         let before = do_works(desk, rt, alloc, gate, pool, works, parts);
         let (answer, worker) = asked.wait(rt);
keep     if pool.idle.push(worker).is_err() {
             return Err(RoundError::Memory);
         }
         let before = before?;
         let Some(done) = answer else {
             return Err(RoundError::WorkerNotStarted);
         };
         let reports = with_report(before, lane, done)?;
         Ok(reports)
"""


def functions():
    """Of each function its file and its name, and of each line of its body the step, or no text, and the code."""
    found = {}
    for line in LISTING.strip("\n").splitlines():
        if line[:1].strip() and ".rt: " in line:
            lines = found[tuple(line.split(": "))] = []
        else:
            lines.append((line[:MARK].strip(), line[MARK:]))
    return found


def steps():
    """The file and the line of code of each step, which is named by its function, as 'give.swap'."""
    return {f"{name}.{step}": f"{file}: {code.strip()}" for (file, name), lines in functions().items() for step, code in lines if step}


def body_of(text, name):
    """The lines of a function's body in a file in the layout of rt fmt, without their common indentation, comments and clauses; None where
    it isn't there once."""
    lines = text.splitlines()
    words = [line.lstrip().removeprefix("pub ").removeprefix("pub(crate) ") for line in lines]
    heads = [place for place, line in enumerate(words) if line.startswith((f"fn {name}(", f"fn {name}<"))]
    if len(heads) != 1:
        return None
    indent = lines[heads[0]][: -len(lines[heads[0]].lstrip())]
    is_outer = lambda line: line.startswith(indent) and line[len(indent) :][:1].strip() != ""
    begin = next(place for place in range(heads[0], len(lines)) if is_outer(lines[place]) and lines[place].endswith("{"))
    end = lines.index(f"{indent}}}", begin)
    return [line[len(indent) + 4 :] for line in lines[begin + 1 : end] if not line.lstrip().startswith(("//", "requires ", "ensures "))]


def differences():
    """A line for each function whose body isn't the one of the listing."""
    for (file, name), lines in functions().items():
        body, listed = body_of((FOLDER / file).read_text(encoding="utf-8"), name), [code for _, code in lines]
        if body != listed:
            other = [line for line in body or [] if line not in listed] or ["in another order, or there aren't as many lines"]
            yield f"{file}: {name} isn't as the model has it" + (f": {other[0].strip()}" if body else ": it isn't there once")
