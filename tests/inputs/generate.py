"""The session files of the comparisons: sound and damaged ones, the same for the same seed, then the chosen ones.

    cd tests && python3 -m inputs.generate [FOLDER]

prints how often each refusal and each trap occurs, and writes the files to FOLDER where one is named.
"""

import os
import random
import sys
from functools import cache

from . import chosen, damaged, features, sound

SEED = 41_317
SOUND, DAMAGED_OF_EACH_KIND = 330, 30


@cache
def files(seed=SEED, sound_count=SOUND, each=DAMAGED_OF_EACH_KIND):
    numbers = random.Random(seed)
    full = sound.full_session(numbers)
    sessions = [full, *sound.sessions(numbers, sound_count)]
    few = [session for session in sessions if len(session[3]) < 13]
    small = [session for session in few if max(planned[6] for planned in session[3]) < 100]
    return [*map(sound.file_of, sessions), *damaged.files(numbers, full, small, each), *chosen.files()]


def main():
    made = files()
    print("\n".join(features.report(made)))
    for folder in sys.argv[1:2]:
        os.makedirs(folder, exist_ok=True)
        for i, file in enumerate(made):
            with open(os.path.join(folder, "%03d.session" % i), "wb") as out:
                out.write(file)


if __name__ == "__main__":
    main()
