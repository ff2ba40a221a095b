// Package treedb is a client of a treedb server. It needs nothing but the standard library, and is one file: copy it where it is needed.
//
//	db, err := treedb.Dial("tcp", "127.0.0.1:7878")
//	if err != nil { .. }
//	defer db.Close()
//	answer, err := db.Call(ctx, "sell", 16, 2)
//
// Several goroutines may use a Client: their requests are answered one after another. A Pool has several connections. docs/use/server.md has the lines that go to and
// fro, docs/use/faults.md all numbers of refusals; `treedb explain NUMBER` prints one.
package treedb

import (
	"bufio"
	"bytes"
	"context"
	"crypto/rand"
	"encoding/hex"
	"encoding/json"
	"errors"
	"fmt"
	mathrand "math/rand"
	"net"
	"strings"
	"sync"
	"syscall"
	"time"
)

const (
	// Timeout is how long an answer may take where nothing else is said.
	Timeout = 30 * time.Second
	// Patience is for how long CallOnce asks again where its context says nothing.
	Patience = 60 * time.Second

	firstPause, longestPause = 50 * time.Millisecond, 2 * time.Second
	maxAnswer                = 1 << 24
	maxKey                   = 64
	maxBatch                 = 256
	fields                   = 8
	nameTaken                = 611
	reader                   = "treedb_read"
)

// Refused is a request that the server refused: nothing was changed. Its numbers are the fault's number and then its parts, as [405 3 1].
type Refused struct{ Numbers []int64 }

func (refused *Refused) Error() string {
	return fmt.Sprintf("refused: %v; treedb explain %d says what it means", refused.Numbers, refused.Numbers[0])
}

// Unanswered is a request that has no answer: there is no connection, or the answer didn't come in time.
type Unanswered struct {
	Reason string
	// MayHaveRun says whether the request may have been done all the same. Where it is false, nothing was sent.
	MayHaveRun bool
	Err        error
}

func (lost *Unanswered) Error() string {
	told := "nothing was sent"
	if lost.MayHaveRun {
		told = "it may have been done"
	}
	return fmt.Sprintf("%s (%s)", lost.Reason, told)
}

func (lost *Unanswered) Unwrap() error { return lost.Err }

// ErrClosed is what a client or a pool gives after its Close.
var ErrClosed = errors.New("the client is closed")

// ErrMissingNode is what Read gives where the tree has no such node.
var ErrMissingNode = errors.New("the tree has no such node")

// Bounds are what a registered procedure does at most on any tree.
type Bounds struct{ Steps, Locks, Emits int64 }

// Answer is a call that was admitted and is done: its number among the calls of its epoch, the number of the epoch, and its reply. Where it is what became of a call that had
// the key before, Recalled is true, and the epoch is the one in the server's store, which counts them through all starts.
type Answer struct {
	Call, Epoch int64
	Reply       []int64
	Recalled    bool
}

// Request is a call of a batch.
type Request struct {
	Procedure string
	Arguments []int64
}

// Outcome is what became of a call of a batch: an answer, or the refusal.
type Outcome struct {
	Answer
	Err error
}

// Option is a word for Dial.
type Option func(*Client)

// WithTimeout says how long an answer may take; 0 is for any time.
func WithTimeout(limit time.Duration) Option { return func(db *Client) { db.timeout = limit } }

// Client is a connection to a server. Where a request has no answer, the connection is closed, so that a late answer is never taken for another one's; Reconnect makes a new one.
type Client struct {
	network, address string
	timeout          time.Duration

	lock     sync.Mutex
	peer     net.Conn
	lines    *bufio.Reader
	isClosed bool
	reads    bool
}

// Dial connects to a port, Dial("tcp", "127.0.0.1:7878"), or to a Unix socket, Dial("unix", "/run/treedb/calls").
func Dial(network, address string, options ...Option) (*Client, error) {
	db := &Client{network: network, address: address, timeout: Timeout}
	for _, option := range options {
		option(db)
	}
	return db, db.Reconnect()
}

// Reconnect connects anew to where the client was made for. After Close it gives ErrClosed.
func (db *Client) Reconnect() error {
	db.lock.Lock()
	defer db.lock.Unlock()
	return db.reconnect()
}

func (db *Client) reconnect() error {
	if db.isClosed {
		return ErrClosed
	}
	db.hangUp()
	peer, err := net.DialTimeout(db.network, db.address, db.timeout)
	if err != nil {
		return &Unanswered{Reason: err.Error(), Err: err}
	}
	db.peer, db.lines = peer, bufio.NewReaderSize(peer, 1<<16)
	return nil
}

// Close ends the connection. A client that is closed stays so.
func (db *Client) Close() error {
	var answer struct{}
	db.lock.Lock()
	defer db.lock.Unlock()
	db.isClosed = true
	if db.peer == nil {
		return nil
	}
	defer db.hangUp()
	return db.ask(context.Background(), struct {
		Op string `json:"op"`
	}{"close"}, &answer)
}

// Register registers an assembler text under a name.
func (db *Client) Register(ctx context.Context, name, text string) (Bounds, error) {
	var answer struct{ Bounds Bounds }
	err := db.do(ctx, struct {
		Op   string `json:"op"`
		Name string `json:"name"`
		Asm  string `json:"asm"`
	}{"register", name, text}, &answer)
	return answer.Bounds, err
}

// RegisterText registers all procedures of a text of the procedure language, or none, and returns the bounds of each by its name.
func (db *Client) RegisterText(ctx context.Context, text string) (map[string]Bounds, error) {
	return db.text(ctx, "register", text)
}

// ReplaceText puts all procedures of a text in the place of those with their names, or none.
func (db *Client) ReplaceText(ctx context.Context, text string) (map[string]Bounds, error) {
	return db.text(ctx, "replace", text)
}

func (db *Client) text(ctx context.Context, op, text string) (map[string]Bounds, error) {
	type named struct {
		Name   string
		Bounds Bounds
	}
	var answer struct{ Registered, Replaced []named }
	err := db.do(ctx, struct {
		Op   string `json:"op"`
		Text string `json:"text"`
	}{op, text}, &answer)
	if err != nil {
		return nil, err
	}
	found := map[string]Bounds{}
	for _, each := range append(answer.Registered, answer.Replaced...) {
		found[each.Name] = each.Bounds
	}
	return found, nil
}

// Call runs a call to its end.
func (db *Client) Call(ctx context.Context, procedure string, arguments ...int64) (Answer, error) {
	return db.CallWithKey(ctx, "", procedure, arguments...)
}

// CallWithKey runs a call with a key of 1 to 64 bytes that no other call has: it may be asked for again, also on a new connection and after the server's next start, and is run
// once. A server without a store refuses it with 1015. The empty key is none.
func (db *Client) CallWithKey(ctx context.Context, key, procedure string, arguments ...int64) (Answer, error) {
	if len(key) > maxKey {
		return Answer{}, fmt.Errorf("the key %q has more than %d bytes", key, maxKey)
	}
	var answer told
	err := db.do(ctx, struct {
		Op   string  `json:"op"`
		Proc string  `json:"proc"`
		Args []int64 `json:"args"`
		Key  string  `json:"key,omitempty"`
	}{"call", procedure, some(arguments), key}, &answer)
	return answer.answer(), err
}

// CallOnce runs a call once, also where its answer is lost: it asks again with the same key, on new connections and with growing pauses, until the context ends, or for Patience
// where it has no deadline. NewKey makes a key.
func (db *Client) CallOnce(ctx context.Context, key, procedure string, arguments ...int64) (Answer, error) {
	return untilAnswered(ctx, func(ctx context.Context) (Answer, error) {
		if err := db.opened(); err != nil {
			return Answer{}, err
		}
		return db.CallWithKey(ctx, key, procedure, arguments...)
	})
}

// Batch runs 1 to 256 calls on 1 to 16 threads at once. Each has an outcome; a call that was refused doesn't keep the others from being done.
func (db *Client) Batch(ctx context.Context, workers int, calls ...Request) ([]Outcome, error) {
	requests := make([][2]any, len(calls))
	for place, call := range calls {
		requests[place] = [2]any{call.Procedure, some(call.Arguments)}
	}
	var answer struct {
		Batch []struct {
			told
			Error []int64
		}
	}
	err := db.do(ctx, struct {
		Op      string   `json:"op"`
		Workers int      `json:"workers"`
		Calls   [][2]any `json:"calls"`
	}{"batch", workers, requests}, &answer)
	outcomes := make([]Outcome, len(answer.Batch))
	for place, each := range answer.Batch {
		if len(each.Error) > 0 {
			outcomes[place].Err = &Refused{each.Error}
		} else {
			outcomes[place].Answer = each.answer()
		}
	}
	return outcomes, err
}

// Read returns the record of a node, eight numbers. It registers the procedure treedb_read when it is first asked, and is a call as others are.
func (db *Client) Read(ctx context.Context, node int64) ([]int64, error) {
	if err := db.registerReader(ctx); err != nil {
		return nil, err
	}
	answer, err := db.Call(ctx, reader, node)
	if err == nil && len(answer.Reply) == 0 {
		err = fmt.Errorf("%w: %d", ErrMissingNode, node)
	}
	return answer.Reply, err
}

func (db *Client) registerReader(ctx context.Context) error {
	db.lock.Lock()
	isThere := db.reads
	db.lock.Unlock()
	if isThere {
		return nil
	}
	var text strings.Builder
	text.WriteString("version 2\narity 1\nfirst n0 v0 else L18\n")
	for field := 0; field < fields; field++ {
		fmt.Fprintf(&text, "get v1 n0 %d\nemit v1\n", field)
	}
	text.WriteString("rel n0\nL18:\nret\n")
	_, err := db.Register(ctx, reader, text.String())
	var refused *Refused
	// Another client has registered it.
	if errors.As(err, &refused) && refused.Numbers[0] == nameTaken {
		err = nil
	}
	if err == nil {
		db.lock.Lock()
		db.reads = true
		db.lock.Unlock()
	}
	return err
}

// Grow appends a node with a record of zeros below each of these nodes, and returns the number of the first one.
func (db *Client) Grow(ctx context.Context, parents ...int64) (int64, error) {
	var answer struct{ Grown int64 }
	err := db.do(ctx, struct {
		Op      string  `json:"op"`
		Parents []int64 `json:"parents"`
	}{"grow", some(parents)}, &answer)
	return answer.Grown, err
}

// Seal seals the current epoch, and returns its number.
func (db *Client) Seal(ctx context.Context) (int64, error) {
	var answer struct{ Sealed int64 }
	err := db.do(ctx, struct {
		Op string `json:"op"`
	}{"seal"}, &answer)
	return answer.Sealed, err
}

// Status is what a server says of itself.
type Status struct{ Epoch, Generation, Calls, Connections, Nodes, Procedures, Refusals, Places, Browsers, Volume int64 }

// StatusOf asks a server on its control port or control socket what it says of itself.
func StatusOf(ctx context.Context, network, address string) (Status, error) {
	var status Status
	return status, control(ctx, network, address, "status", &status)
}

// Stop asks a server on its control port or control socket to end.
func Stop(ctx context.Context, network, address string) error {
	var answer struct{}
	return control(ctx, network, address, "stop", &answer)
}

func control(ctx context.Context, network, address, word string, answer any) error {
	db, err := Dial(network, address)
	if err != nil {
		return err
	}
	db.lock.Lock()
	defer db.lock.Unlock()
	defer db.hangUp()
	return db.exchange(ctx, []byte(word+"\n"), answer)
}

// NewKey makes a key for a call that no other call has: 128 bits by chance.
func NewKey() string {
	var bits [16]byte
	if _, err := rand.Read(bits[:]); err != nil {
		panic(err)
	}
	return hex.EncodeToString(bits[:])
}

// Pool is up to so many connections, each of which one goroutine uses at a time. One that was lost is made anew.
type Pool struct {
	dial   func() (*Client, error)
	places chan *Client
	lock   sync.Mutex
	closed bool
}

// NewPool makes a pool; its connections are made when they are first needed.
func NewPool(size int, network, address string, options ...Option) *Pool {
	pool := &Pool{dial: func() (*Client, error) { return Dial(network, address, options...) }, places: make(chan *Client, size)}
	for place := 0; place < size; place++ {
		pool.places <- nil
	}
	return pool
}

// Do lends a connection to a function, once one is free.
func (pool *Pool) Do(ctx context.Context, use func(*Client) error) error {
	var db *Client
	select {
	case db = <-pool.places:
	case <-ctx.Done():
		return &Unanswered{Reason: "no connection of the pool was free in time", Err: ctx.Err()}
	}
	defer func() { pool.putBack(db) }()
	pool.lock.Lock()
	isClosed := pool.closed
	pool.lock.Unlock()
	if isClosed {
		return ErrClosed
	}
	var err error
	if db == nil {
		if db, err = pool.dial(); err != nil {
			db = nil
			return err
		}
	}
	if err = db.opened(); err != nil {
		return err
	}
	return use(db)
}

// CallOnce is that of a Client, also where the server can't be reached at first.
func (pool *Pool) CallOnce(ctx context.Context, key, procedure string, arguments ...int64) (Answer, error) {
	return untilAnswered(ctx, func(ctx context.Context) (answer Answer, err error) {
		err = pool.Do(ctx, func(db *Client) error {
			answer, err = db.CallWithKey(ctx, key, procedure, arguments...)
			return err
		})
		return answer, err
	})
}

// Close ends the connections that nobody uses, and each other one when its function ends.
func (pool *Pool) Close() {
	pool.lock.Lock()
	pool.closed = true
	pool.lock.Unlock()
	for place := 0; place < cap(pool.places); place++ {
		select {
		case db := <-pool.places:
			pool.putBack(db)
		default:
		}
	}
}

func (pool *Pool) putBack(db *Client) {
	pool.lock.Lock()
	isClosed := pool.closed
	pool.lock.Unlock()
	if isClosed && db != nil {
		db.Close()
		db = nil
	}
	pool.places <- db
}

// told is the answer to a call.
type told struct {
	Call, Epoch int64
	Reply       []int64
	Stored      *int64
}

func (it told) answer() Answer {
	answer := Answer{Call: it.Call, Epoch: it.Epoch, Reply: it.Reply}
	if it.Stored != nil {
		answer.Epoch, answer.Recalled = *it.Stored, true
	}
	return answer
}

// some is the list, which is written as [] where it is empty.
func some(numbers []int64) []int64 {
	if numbers == nil {
		return []int64{}
	}
	return numbers
}

// opened has a connection made where there is none, or where the server has ended it.
func (db *Client) opened() error {
	db.lock.Lock()
	defer db.lock.Unlock()
	if db.peer != nil && db.isIdle() {
		return nil
	}
	return db.reconnect()
}

// isIdle says whether nothing came that nobody has asked for: no answer, and no end.
func (db *Client) isIdle() bool {
	isIdle, isLeft := false, db.lines.Buffered() > 0
	if peer, is := db.peer.(syscall.Conn); is && db.peer.SetDeadline(time.Time{}) == nil {
		if raw, err := peer.SyscallConn(); err == nil {
			_ = raw.Read(func(descriptor uintptr) bool {
				_, _, err := syscall.Recvfrom(int(descriptor), make([]byte, 1), syscall.MSG_PEEK|syscall.MSG_DONTWAIT)
				isIdle = err == syscall.EAGAIN
				return true
			})
		}
	}
	return isIdle && !isLeft
}

func (db *Client) do(ctx context.Context, request, answer any) error {
	db.lock.Lock()
	defer db.lock.Unlock()
	if db.isClosed {
		return &Unanswered{Reason: ErrClosed.Error(), Err: ErrClosed}
	}
	return db.ask(ctx, request, answer)
}

func (db *Client) ask(ctx context.Context, request, answer any) error {
	var line bytes.Buffer
	writer := json.NewEncoder(&line)
	writer.SetEscapeHTML(false)
	if err := writer.Encode(request); err != nil {
		return err
	}
	return db.exchange(ctx, line.Bytes(), answer)
}

// exchange sends a line, and reads the one that answers it. Where there is none, the connection is closed.
func (db *Client) exchange(ctx context.Context, line []byte, answer any) error {
	if db.peer == nil {
		return &Unanswered{Reason: "the connection is closed"}
	}
	if err := ctx.Err(); err != nil {
		return &Unanswered{Reason: err.Error(), Err: err}
	}
	got, err := db.line(ctx, line)
	if err != nil {
		db.hangUp()
		if ctx.Err() != nil {
			err = ctx.Err()
		}
		return &Unanswered{Reason: "the connection is lost: " + err.Error(), MayHaveRun: true, Err: err}
	}
	var refused struct{ Error []int64 }
	if err = json.Unmarshal(got, &refused); err == nil && len(refused.Error) > 0 {
		return &Refused{refused.Error}
	}
	if err == nil {
		err = json.Unmarshal(got, answer)
	}
	if err != nil {
		db.hangUp()
		return &Unanswered{Reason: "the server's answer isn't one: " + err.Error(), MayHaveRun: true, Err: err}
	}
	return nil
}

func (db *Client) line(ctx context.Context, line []byte) ([]byte, error) {
	peer, end := db.peer, time.Time{}
	if db.timeout > 0 {
		end = time.Now().Add(db.timeout)
	}
	if limit, has := ctx.Deadline(); has && (end.IsZero() || limit.Before(end)) {
		end = limit
	}
	if err := peer.SetDeadline(end); err != nil {
		return nil, err
	}
	if ctx.Done() != nil {
		done, ended := make(chan struct{}), make(chan struct{})
		// It has ended before the next request begins.
		defer func() { close(done); <-ended }()
		go func() {
			defer close(ended)
			select {
			case <-ctx.Done():
				_ = peer.SetDeadline(time.Now())
			case <-done:
			}
		}()
	}
	if _, err := peer.Write(line); err != nil {
		return nil, err
	}
	var answer []byte
	for {
		part, err := db.lines.ReadSlice('\n')
		answer = append(answer, part...)
		if err == nil {
			return answer, nil
		}
		if err != bufio.ErrBufferFull {
			return nil, err
		}
		if len(answer) > maxAnswer {
			return nil, errors.New("the answer is too long")
		}
	}
}

func (db *Client) hangUp() {
	if db.peer != nil {
		_ = db.peer.Close()
		db.peer, db.lines = nil, nil
	}
}

// untilAnswered asks, and asks again while there is no answer and the context goes on. Each pause is up to twice as long as the one before, and by chance less.
func untilAnswered(ctx context.Context, ask func(context.Context) (Answer, error)) (Answer, error) {
	if _, has := ctx.Deadline(); !has {
		limited, cancel := context.WithTimeout(ctx, Patience)
		defer cancel()
		ctx = limited
	}
	mayHaveRun := false
	for longest := firstPause; ; longest *= 2 {
		answer, err := ask(ctx)
		var lost *Unanswered
		if !errors.As(err, &lost) || errors.Is(err, ErrClosed) {
			return answer, err
		}
		mayHaveRun = mayHaveRun || lost.MayHaveRun
		lost.MayHaveRun = mayHaveRun
		if longest > longestPause {
			longest = longestPause
		}
		select {
		case <-ctx.Done():
			return Answer{}, lost
		case <-time.After(longest/2 + time.Duration(mathrand.Int63n(int64(longest/2)))):
		}
	}
}
