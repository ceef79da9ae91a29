// The past of a sitting: enough to make its last steps once more, on a machine of their own.
import { LOG_WORDS, PLACES, PSR_USER, Stop } from "./constants.mjs";
import { LOGGED_AT_ONCE } from "./machine.mjs";

// Whether the machine of a snapshot was in User mode.
export function inUserMode({ record }) {
    return Boolean((record[2 * PLACES.PSR + 1] << 8) & PSR_USER);
}

// Makes an alteration that was made from outside between two steps: a register, or words of memory.
export function alter(machine, { register, value, address, words }) {
    if (register === undefined) machine.words.set(words, address);
    else machine.set(register, value);
}

export class Past {
    // `parts` are: marks, the snapshots, the first of them at the start, each with the number of alterations `made`
    // before it; alterations; made; clock, where the past ends; stackBase, the supervisor stack's pointer while the
    // program runs in User mode, where it has done so; firstPc, PC before the first step; machine, the one whose past
    // it is; and follower, another one, on which steps are made again.
    constructor(parts) { Object.assign(this, parts); }

    get edition() { return this.machine.edition; }
    get start() { return this.marks[0].clock; }

    // The machine that follows, standing at a clock, before the step of that number.
    machineAt(clock) {
        this.followed(clock);
        return this.follower;
    }

    shortsAt(clock) { return this.machineAt(clock).shorts.slice(); }

    // The same past with a snapshot at a clock, for whoever asks for several steps after it.
    nearer(clock) {
        const made = this.followed(clock);
        return new Past({ ...this, marks: [this.marks[0], { ...this.follower.snapshot(), made }] });
    }

    // The words of the log of the steps from a clock on, three for each step.
    log(first) {
        const log = new Uint16Array(LOG_WORDS * (this.clock - first));
        let at = 0;
        for (const part of this.logs(first)) {
            log.set(part, at);
            at += part.length;
        }
        return log;
    }

    // The same in parts. While a part is looked at, the machine that follows stands after it.
    *logs(first) {
        const { follower } = this;
        for (let place = this.followed(first); place <= this.made; place++) {
            const alteration = place < this.made ? this.alterations[place] : null;
            const goal = alteration ? alteration.clock : this.clock;
            while (follower.clock < goal) {
                const [stop, log] = follower.advanceLogged(Math.min(goal - follower.clock, LOGGED_AT_ONCE));
                whole(stop);
                yield log;
            }
            if (alteration) alter(follower, alteration);
        }
    }

    // Has the machine that follows stand at a clock, with all that was altered there; how many alterations were made.
    followed(clock) {
        const { follower } = this, mark = this.marks.filter((kept) => kept.clock <= clock).at(-1);
        follower.follow(this.machine, mark);
        let { made } = mark;
        for (; made < this.made && this.alterations[made].clock <= clock; made++) {
            runTo(follower, this.alterations[made].clock);
            alter(follower, this.alterations[made]);
        }
        runTo(follower, clock);
        return made;
    }
}

function runTo(machine, clock) {
    if (machine.clock < clock) whole(machine.advance(clock - machine.clock));
}

// What was run once runs again, to its end.
function whole(stop) {
    if (stop !== Stop.DONE) throw new Error("the machine stops before the end of what is followed");
}
