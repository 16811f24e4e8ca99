"""What ends the making of a package: the laboratory's, whose front tells it."""

from kmip_laboratory.trouble import Trouble as Trouble
