// What an editor that reads TypeScript's declarations has to know of a script of `bp`, so that it completes the forms of `bp`, and
// marks much of what JavaScript has and the language has not. It is used with a `jsconfig.json` as in `examples/`, where no other
// library is read. `docs/LANGUAGE.md` is the language; `docs/WRITING.md` says what is not marked.

/** What an event can carry, and what texts of lists and fields are made of. */
type Data = null | boolean | number | string | readonly Data[] | {readonly [key: string]: Data};

/** An event, a set of events, or a list of such, nested or not. */
type Events = BpEvent | BpSet | readonly Events[];

/** Events and sets are put together with these. A list as the argument stands for the union of what it holds. */
interface Joined {
  /** The events of both. */
  or(other: Events): BpSet;
  /** The events that both have. The argument is asked only of events that the first one has. */
  and(other: Events): BpSet;
  /** The events that one of the two has and the other one has not. */
  xor(other: Events): BpSet;
  /** All other events. */
  negate(): BpSet;
}

/** A set of events. A script can't ask whether it has an event: it states sets in `waitFor`, `block` and `interrupt`. */
interface BpSet extends Joined {}

/** An event. Two of them are equal where their names are equal, and their data is, or both have none. */
interface BpEvent extends Joined {
  readonly name: string;
  /** The data of the event; undefined where it has none. */
  readonly data: any;
}

/** What a b-thread says at a synchronisation point. There is no other key; one that is absent is as an empty list. */
interface Statement {
  /** The events that it asks for, the first one first. */
  readonly request?: BpEvent | readonly BpEvent[];
  /** The events that it wants to hear of. */
  readonly waitFor?: Events;
  /** The events that nobody gets while it stands here. */
  readonly block?: Events;
  /** The events that end this b-thread while it stands here. */
  readonly interrupt?: Events;
}

declare const bp: {
  /** Adds a b-thread of this name that runs `f`, without arguments. Not in predicates. */
  registerBThread(name: string, f: () => void): void;
  /**
   * Stops here until an event is selected that is requested or waited for here, and answers it. In b-threads alone, and in the
   * functions that they call. The priority is a whole number, 0 where there is none; only the strategy `priority` uses it.
   */
  sync(statement: Statement, priority?: number): BpEvent;
  /** An event, with data or without. `bp.Event("a")` is another event than `bp.Event("a", 1)`. */
  Event(name: string, data?: Data): BpEvent;
  /** The set of the events for which `f` answers `true`. Its answer has to be `true` or `false`, and it has no effects. */
  EventSet(name: string, f: (e: BpEvent) => boolean): BpSet;
  /** The set of all events. */
  readonly all: BpSet;
  /** The set of no event. */
  readonly none: BpSet;
  /** Ends the run as violated, with this text, where `condition` counts as false. Not in predicates. */
  ASSERT(condition: any, text: string): void;
  /** Puts an event at the end of the external queue, which is served where no request can be selected. Not in predicates. */
  enqueueExternalEvent(e: BpEvent): void;
  /** Where this b-thread is interrupted, `f` is called with the event, once. It replaces the earlier handler. In b-threads alone. */
  setInterruptHandler(f: (e: BpEvent) => void): void;
  readonly log: {
    /** Prints a text, a whole number, a truth value, null, undefined, an event, or lists and fields of data. Not in predicates. */
    info(what: BpEvent | Data | undefined): void;
  };
};

declare const Math: {
  /** Of a division the quotient rounded down; a division alone has to come out even. */
  floor(n: number): number;
};

// The members of values: all that there are.

interface ReadonlyArray<T> {
  readonly length: number;
  readonly [index: number]: T;
  /** A new list: lists are joined, and what is no list is appended. No list changes. */
  concat(...items: any[]): T[];
  /** Calls `f` with each element, its index and the list. `f` can't add up in a variable around it: use `for of`. */
  forEach(f: (element: T, index: number, list: readonly T[]) => void): void;
}

interface Array<T> extends ReadonlyArray<T> {}

/** A text has no index: there is nothing here. */
interface NoCharacter {
  readonly "a text has no index": never;
}

interface String {
  startsWith(text: string): boolean;
  endsWith(text: string): boolean;
  readonly [index: number]: NoCharacter;
}

// TypeScript asks for these. They have no members in the language.
interface Boolean {}
interface CallableFunction {}
interface Function {}
interface IArguments {}
interface NewableFunction {}
interface Number {}
interface Object {}
interface Promise<T> {}
interface RegExp {}
