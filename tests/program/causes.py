"""All causes of lines of the log that are tested."""
from message_causes import COMMANDS, CONTEXTS, FRAGMENTS, PDUS
from request_causes import ENDS, REQUESTS
from store_causes import CLASSES, STORES_LOST

CAUSES = [
    *REQUESTS,
    *ENDS,
    *PDUS,
    *FRAGMENTS,
    *CONTEXTS,
    *COMMANDS,
    *STORES_LOST,
    *CLASSES,
]
