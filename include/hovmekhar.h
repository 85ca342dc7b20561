/*
 * Hovmekhar: opening and sealing of files, the log table, judging, the pruning of
 * nets, conversion between the editions, the screening of words, the search for a word
 * that leads to an event, and the engine that plays words event by event, with another
 * net from some event on. C11 and C++.
 * The library, libhovmekhar.a, is compiled for x86-64 Linux.
 *
 * A sealed file is 1 to 128 blocks of 512 bytes. Numbers of two bytes have the
 * low byte first. A block holds:
 *
 *   bytes 0-1      block number, from 0
 *   bytes 2-3      used count: 504, in the last block 1 to 504
 *   bytes 4-507    contents; unused contents are zero
 *   bytes 508-509  the sum of bytes 0 to 507, modulo 65,521
 *   bytes 510-511  the sum of (i + 1) * byte i over i = 0 to 507, modulo 65,521
 *
 * The used contents of all blocks, joined, are the bundle.
 *
 * A log is a list of words, and a word is a list of events, each a byte below
 * the event count n. The prefixes of a log are all beginnings of its words; the
 * empty word is always one. The log table has a row for each distinct count
 * vector of a prefix, in the order of first occurrence:
 *
 *   numbers 0-11   how often each event occurs in the prefix; zero from n on
 *   number 12      a mask: bit e is set when a prefix with these counts is
 *                  followed by event e in the log
 *   number 13      the traffic: how many words of the log have a prefix with
 *                  these counts; 65,535 stays
 *
 * These set bits are the allowed steps. A pair of a row and an event below n
 * with its bit clear is a wrong continuation; they are numbered from 0, by row
 * and then by event. A bundle that is judged has one of two editions, which every
 * call that takes a bundle reads. It holds in this order:
 *
 *   1 byte         n, 1 to 12; in the new edition HOV_NEW_EDITION + n
 *   1 byte         the number of words
 *   each word      its length (1 byte), in the new edition then its mark (1 byte,
 *                  0 partial or 1 completed), then its events
 *   1 byte         the number of places, 0 to 64
 *   each place     m, its initial tokens, then n numbers in(i), then n numbers
 *                  out(i), all of two bytes
 *   a certificate  for each wrong continuation, of kind 0: 0 and the number of a
 *                  place (1 byte each); or of kind 1: 1 (1 byte), k (2 bytes, at
 *                  least 1), the number of terms (1 byte, 0 to 64), and for each
 *                  term a row (2 bytes), an event (1 byte), a weight (2 bytes);
 *                  in the new edition then the number of pairs (1 byte, 0 to 64),
 *                  and for each pair a word's number (1 byte, from 0) and a signed
 *                  weight (2 bytes, in two's complement)
 *
 * A place permits event e after the counts v when its surplus is 0 or more:
 * m + the sum of v(i) * (in(i) - out(i)) - out(e). It fits when it permits every
 * allowed step. A certificate of kind 0 holds for (v, e) when its place refuses
 * e after v. One of kind 1, with weights g on allowed steps (u, f), holds when
 * the sum of g is at most k and, for each event i, the sum of g * u(i) is at
 * most k * v(i) and the sum of g * (u(i) + [f = i]) is at least
 * k * (v(i) + [e = i]), where [ ] is 1 if true, else 0. In the new edition, with
 * signed weights h on completed words with the counts u, the sum of h * u(i) is
 * added to the left side of these two, for each event i. A pair may not name a
 * partial word.
 *
 * A place obeys the completed words of a log when the sum of u(i) * (in(i) - out(i))
 * is 0 for the counts u of each: it has its initial tokens again. In the old edition
 * no word is completed.
 *
 * A place is idle when no certificate of kind 0 names it. Pruning leaves the idle
 * places of an accepted bundle out.
 *
 * The steps of a word are its events, each after the counts of the events before
 * it. A net permits a word when every place permits each of its steps. The shortfall
 * of a place that refuses a step is how far its surplus is below 0: out(e) less the
 * tokens that are there before the step. Screening tells whether the places of a
 * bundle permit a lent word. It reads the bundle up to its last place, whether or
 * not the judge accepts it. Joined screening does so with the places of two bundles
 * that have the same n: those of the first, then those of the second, numbered on.
 *
 * A word leads to an event when the net permits the word with the event behind it.
 * hov_reach gives a shortest word of at most five events that leads to a wanted one, and
 * of several the first by event numbers: of two words it is the one with the lower event
 * where they first differ.
 *
 * The carried engine plays a word event by event; the caller keeps the tokens of the
 * places, the events so far in a buffer, and their number. hov_start gives the initial
 * tokens, and hov_step tests an event on every place before it moves their tokens and
 * keeps the event. One that a place refuses is stopped: it moves no token, and is
 * neither kept nor counted. Where all calls get the same bundle, nothing else writes to
 * tokens or buffer and each number is handed on, the answers are those of screening, and
 * each place has m + the sum of v(i) * (in(i) - out(i)) tokens after the counts v of the
 * permitted events. hov_replace puts another net in place of this one between two events,
 * unless that stops on the events so far: the run then goes on just as if all its events
 * had been played on the new net from the start.
 *
 * Every call returns HOV_OK for a result, else the number of a refusal (see
 * enum hov_refusal); screening and hov_step have a second result, HOV_STOPPED, and
 * hov_reach another one, HOV_NONE. A refusal's spot is in answer[0]; where a result is,
 * each call says. Numbers of answer that a call does not use stay as they were.
 *
 * The caller's duties, for every call:
 *   - No pointer is NULL, not even one with length 0.
 *   - Each pointer is valid for its length: inputs for reads; outputs, the
 *     table, the tokens, the events that hov_step keeps, the five bytes of
 *     hov_reach's word and the four numbers of answer for reads and writes. The
 *     numbers of table, tokens and answer are aligned.
 *   - The buffers of one call do not overlap, except that the inputs of
 *     hov_screen, of hov_screen_joined and of hov_replace may.
 *   - Nothing else writes to these buffers during the call, and nothing else
 *     reads those that the call may write to.
 *
 * The calls check everything else. They keep no state, allocate nothing, and
 * may be called from several threads at once on different buffers.
 */
#ifndef HOVMEKHAR_H
#define HOVMEKHAR_H

#include <stddef.h>
#include <stdint.h>

#ifdef __cplusplus
extern "C" {
#endif

/** The version, as text and in its three numbers. */
#define HOV_VERSION "0.14.0"
#define HOV_VERSION_MAJOR 0
#define HOV_VERSION_MINOR 14
#define HOV_VERSION_PATCH 0

/** Bytes of a block. */
#define HOV_BLOCK_SIZE 512

/** Bytes of a block's contents. */
#define HOV_CONTENTS_SIZE 504

/** The largest number of blocks in a sealed file. */
#define HOV_MAX_BLOCKS 128

/** The largest length of a sealed file: HOV_MAX_BLOCKS * HOV_BLOCK_SIZE. */
#define HOV_MAX_FILE_SIZE 65536

/** The largest length of a bundle: HOV_MAX_BLOCKS * HOV_CONTENTS_SIZE. */
#define HOV_MAX_BUNDLE_SIZE 64512

/** The largest event count n. */
#define HOV_MAX_EVENTS 12

/**
 * Numbers of a row of the log table: HOV_MAX_EVENTS counts, the mask of the
 * events that may follow, and the traffic: how many words of the log have a
 * prefix with these counts, up to 65,535.
 */
#define HOV_ROW_SIZE 14

/** The largest number of rows in the log table. */
#define HOV_MAX_ROWS 256

/** Numbers of the log table: HOV_MAX_ROWS * HOV_ROW_SIZE. */
#define HOV_TABLE_SIZE 3584

/** The largest number of events in a log, over all its words. */
#define HOV_MAX_LOG_EVENTS 1024

/** The largest number of places in a net. */
#define HOV_MAX_PLACES 64

/** The largest number of terms in a certificate of kind 1. */
#define HOV_MAX_TERMS 64

/** The largest number of pairs in a certificate of kind 1 of the new edition. */
#define HOV_MAX_PAIRS 64

/** By how much the first byte of a bundle of the new edition is above n. */
#define HOV_NEW_EDITION 128

/** The largest number of events in a word that is screened or played. */
#define HOV_MAX_WORD_EVENTS 65535

/** The largest number of events in a word that hov_reach looks for. */
#define HOV_MAX_REACH_EVENTS 5

/** The most tokens of a place after so many events: 65,536 * 65,535. */
#define HOV_MAX_TOKENS 4294901760

/** What a call returns for a result. */
#define HOV_OK 0

/**
 * What hov_screen and hov_screen_joined return for a word that is stopped, and
 * hov_step for an event that is; it is no refusal.
 */
#define HOV_STOPPED 256

/**
 * What hov_reach returns where no word of HOV_MAX_REACH_EVENTS events or fewer leads to
 * the wanted one; it is no refusal.
 */
#define HOV_NONE 257

/**
 * The numbers of the refusals.
 *
 * Each comment gives the cause, the spot that answer[0] then holds, and what
 * stays as it was. No refusal writes to an input, to an output, to tokens, to kept
 * events or to a word. hov_prune, hov_to_new and hov_to_old leave the table as judge does.
 *
 * This is the whole table, so that a number keeps its meaning when calls are
 * added.
 */
enum hov_refusal {
    /**
     * open: the file's length is 0, no multiple of 512, or above 65,536.
     * Spot: 0. As it was: the output.
     */
    HOV_FILE_LENGTH = 1,

    /**
     * open: the sums of the lowest faulty block are wrong; its number, its used
     * count and its unused bytes are right.
     * Spot: that block. As it was: the output.
     */
    HOV_BLOCK_SUMS = 2,

    /**
     * open, seal, prune, to_new, to_old: the output is shorter than the result.
     * Spot: the length needed. As it was: the output. From prune, to_new and to_old
     * the bundle is accepted, and the rows of its log are in the table.
     * step: the buffer has no room for the event behind those so far.
     * Spot: the length needed, 1 more than their number. As it was: the tokens, the
     * buffer.
     * replace: the buffer is shorter than the events so far.
     * Spot: the length needed, their number. As it was: the tokens.
     */
    HOV_OUTPUT_SHORT = 3,

    /**
     * seal, judge, prune, to_new, to_old, screen, screen_joined, start, step,
     * replace, reach: a bundle's length is 0 or above 64,512.
     * Spot: 0. As it was: the output, the table, the tokens, the word.
     * to_new: the result's length is above 64,512; the bundle is accepted.
     * Spot: 0. As it was: the output. The rows of the log are in the table.
     */
    HOV_BUNDLE_LENGTH = 4,

    /**
     * fresh, take, judge, prune, to_new, to_old: the table has fewer than 3,584
     * numbers.
     * Spot: 3,584. As it was: the table; from prune, to_new and to_old the output.
     * start, step: there are fewer tokens than places; replace: fewer than the new
     * net has.
     * Spot: the number of places. As it was: the tokens.
     */
    HOV_NUMBERS_SHORT = 5,

    /**
     * judge, prune, to_new, to_old, screen, screen_joined, start, step, replace,
     * reach: a bundle ends before or inside a field.
     * Spot: the offset of the field. As it was: the bundle, the tokens, the word; from
     * prune, to_new and to_old the output. See HOV_VALUE for the table.
     */
    HOV_BUNDLE_END = 6,

    /**
     * take, judge, prune, to_new, to_old, screen, screen_joined, start, step, replace,
     * reach: a value is outside its range, or names a row, event, place or word that
     * is not there.
     * Spot: the offset of the field; in a lent word, the position in the word.
     * As it was: from take, the table; from prune, to_new and to_old, the output; from
     * start, step and replace, the tokens; from reach, the word.
     * The judge, refusing with any number but 4 and 5, leaves the table's numbers 0
     * to 3,583 zero and the rest as it was; so do prune, to_new and to_old where the
     * refusal is the judge's.
     */
    HOV_VALUE = 7,

    /**
     * take, judge, prune, to_new, to_old, screen, screen_joined, start, step, replace,
     * reach: the events would pass 1,024.
     * Spot: the offset of the word's length byte; from take 0.
     * As it was: as for HOV_VALUE.
     */
    HOV_EVENTS = 8,

    /**
     * take, judge, prune, to_new, to_old: the rows would pass 256.
     * Spot: as for HOV_EVENTS. As it was: as for HOV_VALUE.
     */
    HOV_ROWS = 9,

    /**
     * judge, prune, to_new, to_old: a place does not fit.
     * Spot: the lowest such place. As it was: the bundle; output and table as for
     * HOV_VALUE.
     */
    HOV_PLACE_MISFIT = 10,

    /**
     * judge, prune, to_new, to_old: the place that a certificate lists permits the
     * wrong continuation.
     * Spot: the certificate's number. As it was: as for HOV_PLACE_MISFIT.
     */
    HOV_PLACE_PERMITS = 11,

    /**
     * judge, prune, to_new, to_old: a certificate of kind 1 does not hold, the step
     * of one of its terms is not allowed, or one of its pairs names a partial word.
     * Spot: the certificate's number. As it was: as for HOV_PLACE_MISFIT.
     */
    HOV_WEIGHTS = 12,

    /**
     * judge, prune, to_new, to_old: bytes follow the last certificate.
     * Spot: the offset of the first. As it was: as for HOV_PLACE_MISFIT.
     */
    HOV_BYTES_FOLLOW = 13,

    /**
     * screen, screen_joined: the word has more than 65,535 events.
     * Spot: 65,535. As it was: the inputs.
     * step: there were 65,535 events or more before this one.
     * replace: there were more than 65,535 events so far.
     * Spot: 65,535. As it was: the tokens.
     */
    HOV_WORD_LENGTH = 14,

    /**
     * screen, screen_joined: an event of the word is not below the event count.
     * Spot: its position. As it was: the inputs.
     * step: the event is not below the event count.
     * Spot: the number of events before it. As it was: the tokens.
     * replace: a kept event is not below the event count of both nets.
     * Spot: its position. As it was: the tokens.
     * reach: the wanted event is not below the event count.
     * Spot: 0. As it was: the word.
     */
    HOV_WORD_EVENT = 15,

    /**
     * fresh, take: the event count is not 1 to 12, the rows are not 1 to 256,
     * or the events are above 1,024.
     * Spot: 0. As it was: the table.
     * step: a place has more than 4,294,901,760 tokens, which no run reaches.
     * Spot: the lowest such place. As it was: the tokens.
     */
    HOV_STATE_RANGE = 16,

    /**
     * open: the number of the lowest faulty block is not its position.
     * Spot: the position. As it was: the output.
     */
    HOV_BLOCK_NUMBER = 17,

    /**
     * open: the used count of the lowest faulty block is wrong, or an unused byte
     * of its contents is not zero; its number is right.
     * Spot: that block. As it was: the output.
     */
    HOV_BLOCK_USE = 18,

    /**
     * screen_joined: the event counts of the two bundles are not the same.
     * Spot: 0. As it was: the inputs.
     */
    HOV_EVENT_COUNTS = 19,

    /**
     * judge, prune, to_new, to_old: a place does not obey the completed words; all
     * places fit.
     * Spot: the lowest such place. As it was: as for HOV_PLACE_MISFIT.
     */
    HOV_PLACE_DISOBEYS = 20,

    /**
     * to_old: a word is completed, and the old edition has no mark; the bundle is
     * accepted.
     * Spot: the number of the first such word, from 0. As it was: the output. The
     * rows of the log are in the table.
     */
    HOV_WORD_COMPLETED = 21,

    /**
     * replace: the event counts of the two bundles are not the same.
     * Spot: 0. As it was: the tokens.
     */
    HOV_REPLACED_EVENTS = 22,

    /**
     * replace: a place of the new net refuses one of the events so far. The run can
     * go on with the old net.
     * Spot: the position of the first such event. As it was: the tokens.
     */
    HOV_RUN_STOPPED = 23
};

/**
 * Opens a sealed file: checks every block, then writes the bundle to the front
 * of the output and leaves the rest of the output as it was.
 *
 * Returns HOV_OK, with the bundle's length in answer[0], or the first refusal
 * that applies, with its spot in answer[0]: HOV_FILE_LENGTH; then of the lowest
 * faulty block HOV_BLOCK_NUMBER, HOV_BLOCK_USE or HOV_BLOCK_SUMS, the first
 * of the three that it has; then HOV_OUTPUT_SHORT. answer[1] to answer[3] stay as
 * they were.
 *
 * An output of HOV_MAX_BUNDLE_SIZE bytes is long enough for every file.
 */
uint32_t hov_open(const uint8_t *file, size_t file_len,
                  uint8_t *output, size_t output_len,
                  uint64_t answer[4]);

/**
 * Seals a bundle: writes the sealed file to the front of the output and leaves
 * the rest of the output as it was.
 *
 * Returns HOV_OK, with the file's length in answer[0], or the first refusal
 * that applies in the order HOV_BUNDLE_LENGTH, HOV_OUTPUT_SHORT, with its spot
 * in answer[0]. answer[1] to answer[3] stay as they were.
 *
 * An output of HOV_MAX_FILE_SIZE bytes is long enough for every bundle.
 */
uint32_t hov_seal(const uint8_t *bundle, size_t bundle_len,
                  uint8_t *output, size_t output_len,
                  uint64_t answer[4]);

/**
 * Starts a log over n events: sets the first HOV_TABLE_SIZE numbers of the
 * table to zero and leaves the rest as it was. The table then has one row, that
 * of the empty prefix. table_len counts numbers, not bytes.
 *
 * Returns HOV_OK, with the summary of the log in answer[0] to answer[2]: the
 * event count n, the rows, 1, and the events so far, 0. answer[3] stays as it
 * was.
 *
 * Or returns the first refusal that applies in the order HOV_NUMBERS_SHORT,
 * HOV_STATE_RANGE, with its spot in answer[0]. answer[1] to answer[3] stay as they
 * were.
 */
uint32_t hov_fresh(size_t n,
                   uint16_t *table, size_t table_len,
                   uint64_t answer[4]);

/**
 * Takes a further word of a log, whose summary so far is n, rows and events.
 * table_len counts numbers, not bytes.
 *
 * For each prefix of the word, shortest first, from the empty one to the whole
 * word: the lowest of the rows with its counts is used; where there is none, a
 * row with its counts, mask 0 and traffic 0 is appended. The row's traffic then
 * grows by 1, where it is not 65,535, and where an event follows in the word,
 * that event's bit is set in the row's mask. No other number of the table
 * changes.
 *
 * Returns HOV_OK, with the next summary in answer[0] to answer[2]: the event
 * count n, the rows and the events so far, to be handed to the next call.
 * answer[3] stays as it was.
 *
 * Or returns the first refusal that applies in the order HOV_NUMBERS_SHORT,
 * HOV_STATE_RANGE, HOV_EVENTS, HOV_VALUE, HOV_ROWS, with its spot in answer[0].
 * answer[1] to answer[3] and the table stay as they were, so the log can go on
 * with another word.
 *
 * A table with other contents than hov_fresh and hov_take left follows the same
 * steps: all twelve counts of a row are compared, and rows beyond those of the
 * summary are not looked at.
 */
uint32_t hov_take(size_t n, size_t rows, size_t events,
                  const uint8_t *word, size_t word_len,
                  uint16_t *table, size_t table_len,
                  uint64_t answer[4]);

/**
 * Judges a bundle: it is accepted when every place fits and obeys the completed
 * words, and every certificate holds. table_len counts numbers, not bytes.
 *
 * Returns HOV_OK when it is accepted, with four counts in answer[0] to
 * answer[3]: the rows, the allowed steps, the certificates of kind 0 and those
 * of kind 1. The first HOV_TABLE_SIZE numbers of the table are then the rows of
 * the log and zeros behind them, whatever they were before, and the rest is as
 * it was.
 *
 * Or returns the first refusal that applies, with its spot in answer[0];
 * answer[1] to answer[3] stay as they were. HOV_BUNDLE_LENGTH comes first, then
 * HOV_NUMBERS_SHORT; they leave the table as it was. Then the others come in the
 * order of the bundle, and leave the first HOV_TABLE_SIZE numbers of the table
 * zero and the rest as it was. A word's length byte is followed by HOV_EVENTS,
 * then by its mark, where it has one, and its events one by one, with HOV_BUNDLE_END
 * or HOV_VALUE at the first that is missing or wrong, then by HOV_ROWS.
 * HOV_PLACE_MISFIT comes after the last place, then HOV_PLACE_DISOBEYS. A certificate
 * is read whole before HOV_PLACE_PERMITS or HOV_WEIGHTS.
 */
uint32_t hov_judge(const uint8_t *bundle, size_t bundle_len,
                   uint16_t *table, size_t table_len,
                   uint64_t answer[4]);

/**
 * Prunes a bundle: judges it as hov_judge does and, when it is accepted, writes it
 * to the front of the output without its idle places, those that no certificate of
 * kind 0 names. The rest of the output stays as it was. table_len counts numbers,
 * not bytes.
 *
 * The other places keep their order, and a certificate of kind 0 names its place by
 * the new number: how many places that stay stand before it. All else is the same
 * byte for byte: the edition and n, the words with their marks, and the certificates
 * of kind 1 with their pairs. So the result is accepted with the same four counts and
 * leaves the same table, and it is never longer. A prefix of the log with one event
 * added is permitted by the new net when the old one permits it, and only then; a
 * word that leaves the log earlier may be permitted although it was not. Pruning the
 * result once more changes nothing.
 *
 * Returns HOV_OK, with the length of the result in answer[0]. Or returns the first
 * refusal that applies, with its spot in answer[0]: those of hov_judge in its order,
 * then HOV_OUTPUT_SHORT. All leave the output as it was. answer[1] to answer[3] stay
 * as they were.
 *
 * The table is as hov_judge leaves it for this bundle, whatever comes after: with
 * HOV_OK and with HOV_OUTPUT_SHORT it has the rows of the log.
 *
 * An output of bundle_len bytes is long enough for every bundle.
 */
uint32_t hov_prune(const uint8_t *bundle, size_t bundle_len,
                   uint8_t *output, size_t output_len,
                   uint16_t *table, size_t table_len,
                   uint64_t answer[4]);

/**
 * Converts a bundle to the new edition: judges it as hov_judge does and, when it is
 * accepted, writes it in the new edition to the front of the output. The rest of the
 * output stays as it was. table_len counts numbers, not bytes.
 *
 * A bundle of the new edition is copied. One of the old edition gets HOV_NEW_EDITION
 * added to its first byte, a mark 0 behind the length byte of each word, so that all
 * words are partial, and a pair count 0 behind the terms of each certificate of kind
 * 1. All else is the same byte for byte, so the result is longer by a byte for each
 * word and for each certificate of kind 1, and hov_to_old gives this bundle back.
 * Either result is accepted with the same four counts and leaves the same table.
 *
 * Returns HOV_OK, with the length of the result in answer[0]. Or returns the first
 * refusal that applies, with its spot in answer[0]: those of hov_judge in its order,
 * then HOV_BUNDLE_LENGTH where the result is longer than HOV_MAX_BUNDLE_SIZE, then
 * HOV_OUTPUT_SHORT. All leave the output as it was. answer[1] to answer[3] stay as
 * they were. HOV_BUNDLE_LENGTH is the result's exactly where bundle_len is 1 to
 * HOV_MAX_BUNDLE_SIZE.
 *
 * The table is as hov_judge leaves it for this bundle, whatever comes after: with
 * HOV_OK, HOV_OUTPUT_SHORT, and HOV_BUNDLE_LENGTH where it is the result's, it has the
 * rows of the log.
 *
 * An output of HOV_MAX_BUNDLE_SIZE bytes is long enough for every bundle.
 */
uint32_t hov_to_new(const uint8_t *bundle, size_t bundle_len,
                    uint8_t *output, size_t output_len,
                    uint16_t *table, size_t table_len,
                    uint64_t answer[4]);

/**
 * Converts a bundle to the old edition: judges it as hov_judge does and, when it is
 * accepted and has no completed word, writes it in the old edition to the front of
 * the output. The rest of the output stays as it was. table_len counts numbers, not
 * bytes.
 *
 * A bundle of the old edition is copied. One of the new edition gets HOV_NEW_EDITION
 * subtracted from its first byte, and loses the marks of its words and the pair counts
 * of its certificates, which are 0 where no word is completed. All else is the same
 * byte for byte, so the result is never longer, and hov_to_new gives this bundle back.
 * Either result is accepted with the same four counts and leaves the same table.
 *
 * Returns HOV_OK, with the length of the result in answer[0]. Or returns the first
 * refusal that applies, with its spot in answer[0]: those of hov_judge in its order,
 * then HOV_WORD_COMPLETED, then HOV_OUTPUT_SHORT. All leave the output as it was.
 * answer[1] to answer[3] stay as they were.
 *
 * The table is as hov_judge leaves it for this bundle, whatever comes after: with
 * HOV_OK, HOV_WORD_COMPLETED and HOV_OUTPUT_SHORT it has the rows of the log.
 *
 * An output of bundle_len bytes is long enough for every bundle.
 */
uint32_t hov_to_old(const uint8_t *bundle, size_t bundle_len,
                    uint8_t *output, size_t output_len,
                    uint16_t *table, size_t table_len,
                    uint64_t answer[4]);

/**
 * Screens a word: replays its events on the places of a bundle, which need not be
 * one that hov_judge accepts. Its rows are not counted, and what follows the last
 * place is not looked at.
 *
 * Returns HOV_OK when every place permits every step of the word; answer[0] to
 * answer[3] stay as they were. Returns HOV_STOPPED when some step is refused,
 * with the position of the first refused step in answer[0], counted from 0, in
 * answer[1] the number of the lowest place that refuses it, and in answer[2] the
 * shortfall of that place, at least 1 and at most 65,535. answer[3] stays as it was.
 *
 * Or returns the first refusal that applies, with its spot in answer[0];
 * answer[1] to answer[3] stay as they were. HOV_WORD_LENGTH comes first, then
 * HOV_BUNDLE_LENGTH. Then HOV_BUNDLE_END, HOV_VALUE and HOV_EVENTS come in the
 * order of the bundle, up to its last place: a word's length byte is followed by
 * HOV_EVENTS, then by its mark, where it has one, and its events one by one.
 * HOV_WORD_EVENT comes last, for the first event of the screened word that is not
 * below n.
 *
 * Both inputs stay as they were.
 */
uint32_t hov_screen(const uint8_t *bundle, size_t bundle_len,
                    const uint8_t *word, size_t word_len,
                    uint64_t answer[4]);

/**
 * Screens a word with the places of two bundles of the same event count, whatever
 * their editions: replays its events on the places of the first, and behind them
 * those of the second. Each bundle is read as hov_screen reads one, and need not be
 * one that hov_judge accepts. No bundle is written.
 *
 * Returns HOV_OK when every place of both permits every step of the word, and
 * HOV_STOPPED when some step is refused, with answer as from hov_screen. The places
 * of the second bundle are numbered from the first one's place count on, so the
 * number in answer[1] is at most 2 * HOV_MAX_PLACES - 1. Where places of both refuse
 * the step, the lowest is one of the first.
 *
 * Or returns the first refusal that applies, with its spot in answer[0];
 * answer[1] to answer[3] stay as they were. HOV_WORD_LENGTH comes first. Then
 * HOV_BUNDLE_LENGTH, HOV_BUNDLE_END, HOV_VALUE and HOV_EVENTS come as in hov_screen,
 * first those of the first bundle and then those of the second, each with its spot
 * in its own bundle. Then comes HOV_EVENT_COUNTS. HOV_WORD_EVENT comes last, for the
 * first event of the screened word that is not below n.
 *
 * All three inputs stay as they were. A bundle may be joined to itself.
 */
uint32_t hov_screen_joined(const uint8_t *first, size_t first_len,
                           const uint8_t *second, size_t second_len,
                           const uint8_t *word, size_t word_len,
                           uint64_t answer[4]);

/**
 * Looks for a word that leads to a wanted event: one that the net of a bundle permits with
 * that event behind it. The word has at most HOV_MAX_REACH_EVENTS events, without the
 * wanted one, and may have none. wanted may be any number. The bundle is read as
 * hov_screen reads one, and need not be one that hov_judge accepts.
 *
 * Returns HOV_OK with a shortest such word in front of the five bytes of word, and how many
 * events it has, 0 to 5, in answer[0]; the bytes behind it and answer[1] to answer[3] stay
 * as they were. Of several that are equally short it is the first by event numbers. Returns
 * HOV_NONE when there is no such word; word and answer stay as they were.
 *
 * Or returns the first refusal that applies, with its spot in answer[0]: HOV_BUNDLE_LENGTH;
 * then HOV_BUNDLE_END, HOV_VALUE and HOV_EVENTS as in hov_screen, up to the last place; then
 * HOV_WORD_EVENT, where wanted is not below n. All leave word and answer[1] to answer[3] as
 * they were.
 */
uint32_t hov_reach(const uint8_t *bundle, size_t bundle_len,
                   size_t wanted,
                   uint8_t word[HOV_MAX_REACH_EVENTS],
                   uint64_t answer[4]);

/**
 * Starts a run on the net of a bundle, which need not be one that hov_judge accepts:
 * writes the initial tokens of its places, in their order, to the front of the tokens
 * and leaves the rest as it was. tokens_len counts numbers, not bytes. The bundle is
 * read as hov_screen reads one.
 *
 * Returns HOV_OK, with the number of the events so far, 0, in answer[0]. Or returns
 * the first refusal that applies, with its spot in answer[0]: HOV_BUNDLE_LENGTH; then
 * HOV_BUNDLE_END, HOV_VALUE and HOV_EVENTS in the order of the bundle, up to its last
 * place; then HOV_NUMBERS_SHORT. All leave the tokens as they were. answer[1] to
 * answer[3] stay as they were.
 *
 * HOV_MAX_PLACES numbers are enough for every bundle.
 */
uint32_t hov_start(const uint8_t *bundle, size_t bundle_len,
                   uint64_t *tokens, size_t tokens_len,
                   uint64_t answer[4]);

/**
 * Plays an event of a run behind so many others: number is that of the events so far,
 * which the call before put in answer[0], and kept has these events in front. tokens_len
 * counts numbers, not bytes.
 *
 * Every place is tested first: it permits the event when it has out(event) tokens or
 * more. When all do, each gets out(event) tokens fewer and in(event) more, and
 * kept[number] becomes the event. Tokens and number may be others than a run leaves, and
 * are then taken as they are. The numbers behind the last place and the other bytes of
 * kept are neither looked at nor changed.
 *
 * Returns HOV_OK, with number + 1 in answer[0], to be handed to the next call;
 * answer[1] to answer[3] stay as they were. Returns HOV_STOPPED when a place refuses
 * the event, with number in answer[0], in answer[1] the lowest such place, and in
 * answer[2] its shortfall, at least 1 and at most 65,535; answer[3], the tokens and kept
 * stay as they were, and the run can go on with another event.
 *
 * Or returns the first refusal that applies, with its spot in answer[0]:
 * HOV_WORD_LENGTH; then HOV_BUNDLE_LENGTH, HOV_BUNDLE_END, HOV_VALUE, HOV_EVENTS and
 * HOV_NUMBERS_SHORT as in hov_start; then HOV_STATE_RANGE, where a place has more than
 * HOV_MAX_TOKENS tokens; then HOV_WORD_EVENT; then HOV_OUTPUT_SHORT, where kept has not
 * more than number bytes. All leave the tokens, kept and answer[1] to answer[3] as they
 * were.
 *
 * HOV_MAX_WORD_EVENTS bytes of kept are enough for every run.
 */
uint32_t hov_step(const uint8_t *bundle, size_t bundle_len,
                  uint64_t *tokens, size_t tokens_len,
                  uint8_t *kept, size_t kept_len,
                  size_t number, size_t event,
                  uint64_t answer[4]);

/**
 * Puts the net of a new bundle in place of that of an old one, between two events of a
 * run: writes the tokens of the new net's places behind the events so far, which are the
 * first number bytes of kept, to the front of the tokens and leaves the rest as it was.
 * tokens_len counts numbers, not bytes. What they held does not matter. Each bundle is
 * read as hov_screen reads one, and need not be one that hov_judge accepts; of the old
 * one only the event count is used.
 *
 * Where only these calls wrote to tokens and kept since hov_start, and each number was
 * handed on, the run goes on just as if all its events had been played on the new net
 * from the start. HOV_REPLACED_EVENTS, HOV_WORD_EVENT and HOV_RUN_STOPPED never come
 * where hov_judge accepts both bundles, which have the same event count, the events so
 * far are a prefix of the old log, each prefix of the old log is one of the new log, and
 * each completed word of the old one is completed in the new one.
 *
 * Returns HOV_OK; answer stays as it was. The next step gets the new bundle and the same
 * number. Or returns the first refusal that applies, with its spot in answer[0]:
 * HOV_WORD_LENGTH; then HOV_OUTPUT_SHORT, where kept has fewer than number bytes; then
 * HOV_BUNDLE_LENGTH, HOV_BUNDLE_END, HOV_VALUE and HOV_EVENTS as in hov_start, first
 * those of the old bundle and then those of the new one, each with its spot in its own
 * bundle; then HOV_REPLACED_EVENTS; then HOV_NUMBERS_SHORT, where there are fewer tokens
 * than places of the new net; then HOV_WORD_EVENT, for the first of the events so far
 * that is not below n; then HOV_RUN_STOPPED. All leave the tokens and answer[1] to
 * answer[3] as they were, and the run can go on with the old bundle.
 */
uint32_t hov_replace(const uint8_t *old_bundle, size_t old_len,
                     const uint8_t *new_bundle, size_t new_len,
                     uint64_t *tokens, size_t tokens_len,
                     const uint8_t *kept, size_t kept_len,
                     size_t number,
                     uint64_t answer[4]);

/**
 * What a refusal means, in words for a message: the number is what a call
 * returned. The spot, which tells where, is in answer[0].
 */
static inline const char *hov_refusal_text(uint32_t number)
{
    switch (number) {
    case HOV_FILE_LENGTH:
        return "the file's length is 0, no multiple of 512, or above 65,536";
    case HOV_BLOCK_SUMS:
        return "a block's sums are wrong";
    case HOV_OUTPUT_SHORT:
        return "the output is shorter than the result, or the buffer than "
               "the events of the run";
    case HOV_BUNDLE_LENGTH:
        return "the bundle's length is 0 or above 64,512, or the result's is "
               "above 64,512";
    case HOV_NUMBERS_SHORT:
        return "the table has fewer than 3,584 numbers, or the tokens have "
               "fewer than there are places";
    case HOV_BUNDLE_END:
        return "the bundle ends before or inside a field";
    case HOV_VALUE:
        return "a value is outside its range, or names a row, event, place "
               "or word that is not there";
    case HOV_EVENTS:
        return "the events would pass 1,024";
    case HOV_ROWS:
        return "the rows would pass 256";
    case HOV_PLACE_MISFIT:
        return "a place does not fit the log: the net is too tight";
    case HOV_PLACE_PERMITS:
        return "a certificate of kind 0 whose place permits the step";
    case HOV_WEIGHTS:
        return "a certificate of kind 1 whose weights do not hold, with a "
               "step that is not allowed, or with a word that is not "
               "completed";
    case HOV_BYTES_FOLLOW:
        return "bytes follow the last certificate";
    case HOV_WORD_LENGTH:
        return "the events of the word would pass 65,535";
    case HOV_WORD_EVENT:
        return "an event of the word, or the wanted one, is not below n";
    case HOV_STATE_RANGE:
        return "n is not 1 to 12, the rows are not 1 to 256, the events "
               "are above 1,024, or the tokens of a place above "
               "4,294,901,760";
    case HOV_BLOCK_NUMBER:
        return "a block's number is not its position";
    case HOV_BLOCK_USE:
        return "a block's used count is wrong, or an unused byte is not "
               "zero";
    case HOV_EVENT_COUNTS:
        return "the event counts of the two bundles are not the same";
    case HOV_PLACE_DISOBEYS:
        return "a place does not return to its initial tokens after a "
               "completed word";
    case HOV_WORD_COMPLETED:
        return "a word is completed, and the old edition has no mark for it";
    case HOV_REPLACED_EVENTS:
        return "the event counts of the bundle and of the one that replaces "
               "it are not the same";
    case HOV_RUN_STOPPED:
        return "the net that replaces another stops on the events so far";
    default:
        return "no refusal has this number";
    }
}

#ifdef __cplusplus
}
#endif

#endif
