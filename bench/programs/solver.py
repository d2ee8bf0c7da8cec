class Variable:
    def __init__(self, value):
        self.value = value
        self.by = None
        self.mark = 0


class Constraint:
    def __init__(self, output):
        self.output = output

    def choose(self):
        self.output.by = self


class Stay(Constraint):
    def is_ready(self, mark):
        return True

    def execute(self):
        pass


class Edit(Constraint):
    def __init__(self, output):
        super().__init__(output)
        self.next = 0

    def is_ready(self, mark):
        return True

    def execute(self):
        self.output.value = self.next


class Equal(Constraint):
    def __init__(self, input, output):
        super().__init__(output)
        self.input = input

    def is_ready(self, mark):
        return self.input.mark == mark

    def execute(self):
        self.output.value = self.input.value


class Scale(Constraint):
    def __init__(self, input, factor, offset, output):
        super().__init__(output)
        self.input = input
        self.factor = factor
        self.offset = offset

    def is_ready(self, mark):
        return self.input.mark == mark and self.factor.mark == mark and self.offset.mark == mark

    def execute(self):
        self.output.value = (self.input.value * self.factor.value + self.offset.value) & 1048575


class Planner:
    def __init__(self, constraints):
        self.constraints = constraints
        self.mark = 0

    def plan(self):
        self.mark = self.mark + 1
        order = []
        waiting = self.constraints
        while len(waiting) > 0:
            later = []
            for c in waiting:
                if c.is_ready(self.mark):
                    c.choose()
                    c.output.mark = self.mark
                    order.append(c)
                else:
                    later.append(c)
            waiting = later
        return order


def main():
    factor, offset, first = Variable(3), Variable(7), Variable(0)
    edit = Edit(first)
    all = [Stay(factor), Stay(offset), edit]
    at = first
    for i in range(200):
        after = Variable(0)
        if i % 2 == 0:
            all.append(Equal(at, after))
        else:
            all.append(Scale(at, factor, offset, after))
        at = after
    planner = Planner(all)
    total = 0
    for turn in range(10):
        order = planner.plan()
        for k in range(60):
            edit.next = turn * 100 + k
            for c in order:
                c.execute()
            total = (total + at.value) & 1048575
    print(total)


main()
