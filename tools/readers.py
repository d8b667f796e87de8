"""The reader of each kind of file."""
import assembler_model
import file_readers

READERS = {
    "key": file_readers.read_key,
    "keys": file_readers.read_keys,
    "image": file_readers.read_image,
    "script": file_readers.read_script,
    "policy": file_readers.read_policy,
    "desk policy": file_readers.read_desk_policy,  # (a policy too)
    "reports": file_readers.read_reports,
    "source": assembler_model.assemble,
    "trace": file_readers.read_trace,
    "states": file_readers.read_states,
    "moved": file_readers.read_states,  # (what else may be wrong MEMORY says)
}


def first_fault(kind, text):
    """The line and the kind of a file's first fault, as `1: Missing`; None where it has none."""
    try:
        READERS[kind](text)
    except file_readers.Fault as fault:
        return f"{fault.line}: {fault.kind}"
    return None
