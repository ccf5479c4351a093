"""Which nodes of a tree the chain from node 0 has, kept while words are written: a write costs no walk along all of the chain."""

from words import PART_WORDS

RIGHT = 3  # the offset of the word that leads on from a node


class Chain:
    """The nodes of the chain, and by node what took those out that were in it before."""

    def __init__(self, words):
        self.words = words
        nodes, self.is_broken = words.chain()
        self.nodes, self.taken_out = set(nodes), {}

    def changed(self, word, before, by):
        """A word was written that was `before` until then. What did it, `by`, is kept if it took a node out.

        Gives the nodes that came in and those that went.
        """
        node, offset = divmod(word, PART_WORDS["tree"])
        after = self.words[word]
        if offset != RIGHT or after == before or node not in self.nodes:
            return set(), set()
        added, meets = self._from(after, self.nodes)
        gone, ends = self._from(before, {meets})
        if self.is_broken or ends != meets or meets in added or meets >= self.words.size:
            nodes, self.is_broken = self.words.chain()
            added = set(nodes) - self.nodes
            gone = self.nodes - set(nodes)
        self.nodes.update(added)
        self.nodes.difference_update(gone)
        for other in added:
            self.taken_out.pop(other, None)
        self.taken_out.update(dict.fromkeys(gone, by))
        return added, gone

    def _from(self, node, known):
        """The nodes from one on along the right words, up to one that is known or has come before, and where that is.

        The chain ends at 0, and at what is no node.
        """
        nodes = {}
        while 0 < node < self.words.size and node not in nodes and node not in known:
            nodes[node] = None
            node = self.words[PART_WORDS["tree"] * node + RIGHT]
        return nodes, node
