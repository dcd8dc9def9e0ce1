"""Certification path validation by the text of RFC 5280 section 6.1, with the policy graph of RFC 9618: what each step does, under its
letter. A path is the octets of its certificates, from the one that the trust anchor issued to the end certificate.

Not judged: signatures (6.1.3 (a)(1)) and revocation (6.1.3 (a)(3)); path_signatures.py and revocation_oracle.py do that. The first step
that fails, in the order of the certificates and of the letters, is the answer. Names are compared by path_names.py."""

from dataclasses import dataclass, field

from .path_certificate import (BASIC_CONSTRAINTS, CERTIFICATE_POLICIES, EXTENDED_KEY_USAGE, INHIBIT_ANY_POLICY, KEY_USAGE, NAME_CONSTRAINTS,
                               POLICY_CONSTRAINTS, POLICY_MAPPINGS, SUBJECT_ALT_NAME, Certificate, constraints_of)
from .path_names import is_excluded, is_permitted, names_of
from .reader.octets import Refused, message_of

ANY_POLICY = bytes.fromhex("551d2000")
# The extensions that section 4.2 has applications recognize, and policyMappings, which 6.1.4 processes.
RECOGNIZED = {BASIC_CONSTRAINTS, CERTIFICATE_POLICIES, EXTENDED_KEY_USAGE, INHIBIT_ANY_POLICY, KEY_USAGE, NAME_CONSTRAINTS, POLICY_CONSTRAINTS,
              POLICY_MAPPINGS, SUBJECT_ALT_NAME}
KEY_CERT_SIGN = 5


class Fails(Exception):
    """A step that fails, by its letter."""


@dataclass(frozen=True)
class Settings:
    """The inputs (6.1.1 (b) to (i)): the moment in seconds from 1970; user-initial-policy-set, as contents octets; what starts set; and
    the initial subtrees, as the octets of a NameConstraints, or none."""

    moment: int
    policies: frozenset = frozenset([ANY_POLICY])
    explicit_policy: bool = False
    mapping_inhibit: bool = False
    any_policy_inhibit: bool = False
    constraints: bytes = b""


@dataclass
class Node:
    """A node of the valid_policy_graph, without qualifiers (RFC 9618 section 4.1): its parents are named by their valid_policy."""

    expected: set
    parents: set


class Graph:
    """The valid_policy_graph: of each depth, the nodes by their valid_policy. The graph without nodes is NULL."""

    def __init__(self):
        # 6.1.2 (a)
        self.depths = [{ANY_POLICY: Node({ANY_POLICY}, set())}]

    @property
    def is_null(self):
        return not self.depths

    def set_null(self):
        self.depths = []

    def expecting(self, policy, nodes):
        return {valid for valid, node in nodes.items() if policy in node.expected}

    def delete_childless(self):
        """Deletes nodes above the last depth that have no children, until there are none (6.1.3 (d)(3))."""
        for depth in range(len(self.depths) - 2, -1, -1):
            kept = set().union(*(node.parents for node in self.depths[depth + 1].values()))
            self.depths[depth] = {valid: node for valid, node in self.depths[depth].items() if valid in kept}
        if not self.depths[0]:
            self.set_null()

    def process_policies(self, policies, may_be_any):
        """6.1.3 (d); the second argument says whether anyPolicy is processed in (d)(2)."""
        above, nodes = self.depths[-1], {}
        for policy in policies:
            if policy == ANY_POLICY:
                continue
            parents = self.expecting(policy, above)  # (d)(1)(i)
            if not parents and ANY_POLICY in above:  # (d)(1)(ii)
                parents = {ANY_POLICY}
            if parents:
                nodes[policy] = Node({policy}, parents)
        if ANY_POLICY in policies and may_be_any:  # (d)(2)
            for policy in set().union(*(node.expected for node in above.values())) - set(nodes):
                nodes[policy] = Node({policy}, self.expecting(policy, above))
        self.depths.append(nodes)
        self.delete_childless()

    def process_mappings(self, mappings, is_mapping):
        """6.1.4 (b); the second argument says whether policy_mapping is greater than 0."""
        nodes = self.depths[-1]
        for policy in {issuer for issuer, _ in mappings}:
            if not is_mapping:  # (b)(2)
                nodes.pop(policy, None)
                continue
            expected = {subject for issuer, subject in mappings if issuer == policy}
            if policy in nodes:  # (b)(1)
                nodes[policy].expected = expected
            elif ANY_POLICY in nodes:
                nodes[policy] = Node(expected, {ANY_POLICY})
        if not is_mapping:
            self.delete_childless()

    def authority_constrained(self):
        """authority_constrained_policy_set (6.1.5 (g)): nodes whose parent is anyPolicy, and anyPolicy at the last depth."""
        if self.is_null:
            return set()
        found = {valid for nodes in self.depths[1:] for valid, node in nodes.items() if valid != ANY_POLICY and node.parents == {ANY_POLICY}}
        return found | ({ANY_POLICY} & set(self.depths[-1]))

    def user_constrained(self, wanted):
        """user_constrained_policy_set (6.1.5 (g))."""
        found = self.authority_constrained()
        if ANY_POLICY in wanted:
            return found
        return wanted if ANY_POLICY in found else found & wanted


@dataclass
class State:
    """The variables of 6.1.2, of a path of so many certificates. Failures are collected where there is a list for them."""

    count: int
    settings: Settings
    issuer: object
    failures: list = None
    graph: Graph = field(default_factory=Graph)
    permitted: list = field(default_factory=list)
    excluded: list = field(default_factory=list)

    def __post_init__(self):
        given = self.settings
        self.explicit_policy = 0 if given.explicit_policy else self.count + 1  # (d)
        self.inhibit_any_policy = 0 if given.any_policy_inhibit else self.count + 1  # (e)
        self.policy_mapping = 0 if given.mapping_inhibit else self.count + 1  # (f)
        self.max_path_length = self.count  # (k)
        if given.constraints:  # (b), (c)
            self.constrain(*constraints_of(message_of(given.constraints)))

    def constrain(self, permitted, excluded):
        """6.1.4 (g)."""
        self.permitted += [permitted] if permitted else []
        self.excluded += excluded or []

    def verify(self, holds, letter):
        if not holds and self.failures is None:
            raise Fails(letter)
        if not holds:
            self.failures.append(letter)


def basic_processing(state, certificate, is_last):
    """6.1.3."""
    state.verify(is_current(certificate, state.settings.moment), "6.1.3 (a)(2)")
    state.verify(certificate.issuer.matches(state.issuer), "6.1.3 (a)(4)")
    if is_last or not certificate.is_self_issued:
        names = names_of(certificate)
        state.verify(all(is_permitted(listed, name) for listed in state.permitted for name in names), "6.1.3 (b)")
        state.verify(not any(is_excluded(state.excluded, name) for name in names), "6.1.3 (c)")
    if certificate.policies is None:
        state.graph.set_null()  # (e)
    elif not state.graph.is_null:
        may_be_any = state.inhibit_any_policy > 0 or (not is_last and certificate.is_self_issued)
        state.graph.process_policies(certificate.policies, may_be_any)
    state.verify(state.explicit_policy > 0 or not state.graph.is_null, "6.1.3 (f)")


def is_current(certificate, moment):
    """The validity "includes the current time", both ends of it (4.1.2.5)."""
    return certificate.first <= moment <= certificate.last


def prepare_for_next(state, certificate):
    """6.1.4."""
    process_mappings(state, certificate)
    state.issuer = certificate.subject  # (c)
    state.constrain(*certificate.name_constraints)  # (g)
    if not certificate.is_self_issued:  # (h)
        state.explicit_policy = max(state.explicit_policy - 1, 0)
        state.policy_mapping = max(state.policy_mapping - 1, 0)
        state.inhibit_any_policy = max(state.inhibit_any_policy - 1, 0)
    explicit, mapping = certificate.policy_constraints
    state.explicit_policy = least(state.explicit_policy, explicit)  # (i)(1)
    state.policy_mapping = least(state.policy_mapping, mapping)  # (i)(2)
    state.inhibit_any_policy = least(state.inhibit_any_policy, certificate.inhibit_any_policy)  # (j)
    state.verify(is_issuer(certificate), "6.1.4 (k)")
    if not certificate.is_self_issued:
        state.verify(state.max_path_length > 0, "6.1.4 (l)")
        state.max_path_length -= 1
    length = certificate.basic_constraints[1] if certificate.basic_constraints else None
    state.max_path_length = least(state.max_path_length, length)  # (m)
    state.verify(certificate.key_usage is None or KEY_CERT_SIGN in certificate.key_usage, "6.1.4 (n)")
    state.verify(recognizes_all(certificate), "6.1.4 (o)")


def process_mappings(state, certificate):
    """6.1.4 (a) and (b)."""
    mappings = certificate.mappings or []
    state.verify(all(ANY_POLICY not in pair for pair in mappings), "6.1.4 (a)")
    if mappings and not state.graph.is_null:
        state.graph.process_mappings(mappings, state.policy_mapping > 0)


def least(variable, value):
    return variable if value is None else min(variable, value)


def is_issuer(certificate):
    """A certificate of version 3 with cA; others would need "out-of-band means"."""
    return certificate.version == 3 and certificate.basic_constraints is not None and certificate.basic_constraints[0]


def recognizes_all(certificate):
    """Whether each critical extension is recognized."""
    return all(it.kind in RECOGNIZED for it in certificate.extensions.values() if it.is_critical)


def wrap_up(state, certificate):
    """6.1.5; gives user_constrained_policy_set."""
    count_last(state, certificate)
    if certificate.policy_constraints[0] == 0:  # (b)
        state.explicit_policy = 0
    state.verify(recognizes_all(certificate), "6.1.5 (f)")
    policies = state.graph.user_constrained(set(state.settings.policies))
    state.verify(state.explicit_policy > 0 or policies, "6.1.5 (g)")
    return policies


def count_last(state, certificate):
    """6.1.5 (a), of each last certificate, also of a self-issued one."""
    state.explicit_policy = max(state.explicit_policy - 1, 0)


def read_path(anchor, path):
    """The certificates, the anchor first; or the number of the one that cannot be read. The values of extensions are read later."""
    found = []
    for number, octets in enumerate([anchor, *path]):
        try:
            found.append(Certificate(octets))
        except Refused:
            return None, number
    return found, None


def steps(state, certificates):
    """Processes certificates in their order; gives the number of each, and what came of it: the answer where it is refused or a value of
    an extension cannot be read, and the policies of the last one."""
    for number, certificate in enumerate(certificates, 1):
        is_last = number == len(certificates)
        try:
            basic_processing(state, certificate, is_last)
            outcome = wrap_up(state, certificate) if is_last else prepare_for_next(state, certificate)
        except Fails as failed:
            outcome = "refused", number, str(failed)
        except Refused:
            outcome = "unread", number
        yield number, outcome


def answer(anchor, path, settings):
    """One of: ("valid", the policies); ("refused", the certificate's number from 1, the letter); ("unread", the number, 0 of the anchor), if
    the certificate, or the value of an extension that a step takes, cannot be read."""
    certificates, unread = read_path(anchor, path)
    if unread is not None:
        return "unread", unread
    state = State(len(path), settings, certificates[0].subject)
    for _, outcome in steps(state, certificates[1:]):
        if isinstance(outcome, tuple):
            return outcome
    return "valid", frozenset(outcome)


def failures(anchor, path, settings):
    """All steps that fail, if those after a failure are done with what it left: the number of the certificate, and the letter."""
    certificates, unread = read_path(anchor, path)
    if unread is not None:
        return [(unread, "unread")]
    state, found = State(len(path), settings, certificates[0].subject, []), []
    for number, _ in steps(state, certificates[1:]):
        found += [(number, it) for it in state.failures]
        state.failures.clear()
    return found
