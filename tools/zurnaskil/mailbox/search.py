"""Every interleaving of a model's steps."""
from collections import namedtuple

from .model import Wrong

# `steps` is how many lead from a state to one, `sleeps` how many of them end a sleep for no reason, and `named` are their names. `way` are the names
# of the steps to what no run may come to, and `fault` is what that is; else both are None.
Found = namedtuple("Found", "states steps sleeps named way fault")


class Search:
    """The states that a model can reach, each with a number, the nearest first."""

    def __init__(self, model):
        self.model, first = model, model.first()
        self.numbers, self.states, self.came, self.before = {first: 0}, [first], [(None, None)], [[]]
        self.named, self.steps, self.sleeps = set(), 0, 0

    def found(self):
        place = 0
        try:
            while place < len(self.states):
                self.go_on(place)
                place += 1
            place, fault = self.endless()
        except Wrong as wrong:
            fault = str(wrong)
        way = self.way_to(place) if fault else None
        return Found(len(self.states), self.steps, self.sleeps, self.named, way, fault)

    def go_on(self, place):
        """Each step from a state. One by which a sleep ends for no reason leads on, and nothing may rest on it."""
        goes_on = self.model.is_final(self.states[place])
        for name, is_sleep, state in self.model.steps(self.states[place]):
            number = self.numbers.setdefault(state, len(self.states))
            if number == len(self.states):
                self.states.append(state)
                self.came.append((place, name))
                self.before.append([])
            if not is_sleep:
                self.before[number].append(place)
                goes_on = True
            self.named.add(name)
            self.steps += 1
            self.sleeps += is_sleep
        if not goes_on:
            raise Wrong("each thread waits for another")

    def endless(self):
        """The nearest state from which no end can be reached, if there is one, and what is said of it."""
        reached = [self.model.is_final(state) for state in self.states]
        todo = [number for number, is_final in enumerate(reached) if is_final]
        while todo:
            for place in self.before[todo.pop()]:
                if not reached[place]:
                    reached[place] = True
                    todo.append(place)
        return (reached.index(False), "no end can be reached") if False in reached else (None, None)

    def way_to(self, number):
        names = []
        while number:
            number, name = self.came[number]
            names.append(name)
        return names[::-1]
