"""A replica's tree of blocks. What stands in it is a window: genesis, and each block that was taken and whose
height is at least the horizon less two. What is no more in the window is let go."""
from .frames import GENESIS
from .sizes import Fault, Refusal

MOST_BLOCKS = 1048576
MOST_OF_ONE_HEIGHT = 64
# Heights are below this one, so that places in the history fit into eight bytes.
HEIGHTS_END = 2 ** 58
# So many heights below the horizon stand. No block may justify one below the horizon, so that three blocks in
# direct succession stand as long as the third may be justified.
BELOW_THE_HORIZON = 2


class Block:
    """A block in a tree; genesis has no core, and justifies itself. A link to a block that was let go is
    None.
    """

    def __init__(self, digest, core, cert, clear, parent, justified):
        self.digest = digest
        self.core = core
        self.cert = cert
        self.clear = clear
        self.parent = parent
        self.justified = justified or self
        self.height = core.height if core else 0
        self.justify_height = core.justify if core else 0
        self.justified_digest = cert.digest if cert else digest
        self.votes = {}             # voter -> vote

    def at(self, height):
        """The block of that height on its branch, which has to be in the window."""
        block = self
        while block.height > height:
            block = block.parent
        return block

    def extends(self, other):
        return self.height >= other.height and self.at(other.height) is other

    def above(self, height):
        """From the first block above a height, which has to be in the window, up to this block."""
        below, block = [], self
        while block.height > height:
            below.append(block)
            block = block.parent
        return below[::-1]

    def cut(self, floor):
        """Lets go what this block knows of blocks below a height."""
        if self.parent and 0 < self.parent.height < floor:
            self.parent = None
        if self.justified and 0 < self.justified.height < floor:
            self.justified = None


class Tree:
    def __init__(self):
        self.genesis = Block(GENESIS, None, None, True, None, None)
        self.blocks = {GENESIS: self.genesis}
        self.of_height = {}
        self.horizon = 0

    def get(self, digest):
        return self.blocks.get(digest)

    def floor(self):
        """The lowest height of the window, genesis aside."""
        return max(1, self.horizon - BELOW_THE_HORIZON)

    def place(self, core, cert, clear):
        """The block that stands there, or a new one that may; (block, whether it is new)."""
        digest = core.digest()
        block = self.blocks.get(digest)
        if (block.justify_height if block else core.justify) < self.horizon:
            raise Refusal(Fault.PRUNED)
        if block is None:
            return self._new(digest, core, cert, clear), True
        if cert.digest != block.justified_digest:
            raise Refusal(Fault.WRONG_JUSTIFY)
        return block, False

    def _new(self, digest, core, cert, clear):
        parent = self.blocks.get(core.parent)
        if parent is None:
            raise Refusal(Fault.UNKNOWN_PARENT)
        if core.height != parent.height + 1:
            raise Refusal(Fault.BAD_HEIGHT)
        justified = parent.at(core.justify)
        if cert.digest != justified.digest:
            raise Refusal(Fault.WRONG_JUSTIFY)
        if self.of_height.get(core.height, 0) >= MOST_OF_ONE_HEIGHT:
            raise Refusal(Fault.CROWDED)
        if len(self.blocks) >= MOST_BLOCKS or core.height >= HEIGHTS_END:
            raise Refusal(Fault.FULL)
        return Block(digest, core, cert, clear, parent, justified)

    def insert(self, block):
        self.blocks[block.digest] = block
        self.of_height[block.height] = self.of_height.get(block.height, 0) + 1

    def prune(self, horizon):
        """Raises the horizon, and lets go what is below the window."""
        self.horizon = horizon
        floor = self.floor()
        for block in [block for block in self.blocks.values() if 0 < block.height < floor]:
            del self.blocks[block.digest]
        for height in [height for height in self.of_height if height < floor]:
            del self.of_height[height]
        for block in self.blocks.values():
            block.cut(floor)
