"""What `hunt` finds: whether the run is told to end so by `tell`."""
import re

def is_disagreement(finding):
    """Whether a status was returned that disagrees with its mark, which `--exact` doesn't look for."""
    return finding.endswith(' a status was returned that disagrees with the mark')

def is_shown(finding, told):
    """Whether what `tell --every` tells of a run shows what the first line of its schedule tells. The audit tells a lost packet with
    its places, a ring with where threads stand, and a lock by its name: `d0.l6` where the line has `lock 0.6`."""
    left = re.match(r'lock (?:cancel|\d+\.(\d+)) (is left behind: thread \d+ owns it and is idle)$', finding)
    if left:
        name = r'\.l' + left.group(1) if left.group(1) else 'the system cancel spin lock'
        return re.search(r'%s %s$' % (name, left.group(2)), told, re.M) is not None
    head = re.match(r'bug .*|wrong .*|packet \d+|thread \d+', finding)
    return head is not None and head.group() in told
