"""Why a class is or is not dynamic, empty, nearly empty and POD, and why a base is its primary base: the rules of docs/LAYOUT.md."""


class Kinds:
    """The kinds of the classes of a source. Each question gives whether it is so, and why."""

    def __init__(self, objects):
        self.objects, self.classes, self.layouts = objects, objects.classes, objects.layouts

    def is_dynamic(self, name):
        return name in self.objects.dynamic

    def is_empty(self, name):
        return name in self.objects.empty

    def dynamic(self, name):
        one = self.classes[name]
        for base in one.bases:
            if base.virtual:
                return True, f"{base.name} is a virtual base"
            if self.is_dynamic(base.name):
                return True, f"the base {base.name} is dynamic"
        virtual = [function.name for function in one.functions if function.virtual]
        return (True, f"{virtual[0]} is virtual") if virtual else (False, "it has no virtual function and no virtual base")

    def empty(self, name):
        one = self.classes[name]
        if one.fields:
            return False, f"it has the member {one.fields[0].name}"
        if self.is_dynamic(name):
            return False, f"it has a virtual pointer, for {self.dynamic(name)[1]}"
        full = [base.name for base in one.bases if not self.is_empty(base.name)]
        return (False, f"the base {full[0]} is not empty") if full else (True, "it has no member and no virtual pointer" + (", and its bases are empty" if one.bases else ""))

    def nearly_empty(self, name):
        one = self.classes[name]
        if not self.is_dynamic(name):
            return False, "it is not dynamic"
        if one.fields:
            return False, f"it has the member {one.fields[0].name}"
        pointers = []
        for base in one.bases:
            if not base.virtual and not self.is_empty(base.name):
                if not self.nearly_empty(base.name)[0]:
                    return False, f"the base {base.name} is neither empty nor nearly empty"
                pointers.append(base.name)
        if len(pointers) > 1:
            return False, f"two bases, {pointers[0]} and {pointers[1]}, bring a virtual pointer"
        elsewhere = [base for base in self.layouts[name].bases if self.is_empty(base.class_name) and base.place and not base.shared]
        if elsewhere:
            return False, f"the empty base {elsewhere[0].text} lies at {elsewhere[0].place} and not at 0"
        return True, "it is a virtual pointer and nothing else"

    def pod(self, name):
        one = self.classes[name]
        if one.bases:
            return False, f"it has the base {one.bases[0].name}"
        for function in one.functions:
            if function.kind != "function":
                return False, f"it declares a {function.kind}"
            if function.virtual:
                return False, f"{function.name} is virtual"
        for field in one.fields:
            if field.access != "public":
                return False, f"{field.name} is {field.access}"
            if field.type in self.classes and not self.pod(field.type)[0]:
                return False, f"the class {field.type} of {field.name} is no POD"
        return True, "it has no base, no virtual function, no constructor or destructor, and public members of such types alone"

    def primary(self, name):
        """The primary base, as `layout` says it, and why it is that one."""
        if not self.is_dynamic(name):
            return "none", "the class is not dynamic"
        for base in self.classes[name].bases:
            if not base.virtual and self.is_dynamic(base.name):
                return base.name, "the first direct base that is dynamic and not virtual"
        shared = [base.class_name for base in self.layouts[name].bases if base.shared and len(base.names) == 1]
        near = [base for base in shared if self.nearly_empty(base)[0]]
        if not near:
            reasons = "; ".join(f"{base} is not nearly empty: {self.nearly_empty(base)[1]}" for base in shared)
            return "none", f"no direct base is dynamic and not virtual{'; ' + reasons if reasons else ''}; the class has a virtual pointer of its own"
        taken = {self.layouts[base.class_name].virtual_primary for base in self.layouts[name].bases}
        free = [base for base in near if base not in taken]
        if free:
            return f"virtual {free[0]}", "the first nearly empty virtual base that is the primary base of no other base"
        return f"virtual {near[0]}", "the first nearly empty virtual base; each one is the primary base of another base"
