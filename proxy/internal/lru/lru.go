// Package lru keeps what was used last, up to a number of bytes.
package lru

import (
	"container/list"
	"sync"
)

// overhead is about how many bytes an entry takes beside what it is said to take.
const overhead = 200

// Cache is for any number of goroutines. A nil *Cache keeps nothing.
type Cache[K comparable, V any] struct {
	mutex sync.Mutex
	limit int64
	bytes int64
	order list.List // of *entry[K, V], the last used one in front
	known map[K]*list.Element
}

type entry[K comparable, V any] struct {
	key   K
	value V
	bytes int64
}

// New is a cache of so many bytes; nil where there are none.
func New[K comparable, V any](limit int64) *Cache[K, V] {
	if limit <= 0 {
		return nil
	}
	return &Cache[K, V]{limit: limit, known: map[K]*list.Element{}}
}

// Get is what was put there last, if it is still there.
func (it *Cache[K, V]) Get(key K) (value V, isThere bool) {
	if it == nil {
		return value, false
	}
	it.mutex.Lock()
	defer it.mutex.Unlock()
	element, isThere := it.known[key]
	if !isThere {
		return value, false
	}
	it.order.MoveToFront(element)
	return element.Value.(*entry[K, V]).value, true
}

// Put keeps a value of so many bytes, in place of those that were not used for the longest time. One that is longer than all of the
// cache isn't kept, and neither is what was there.
func (it *Cache[K, V]) Put(key K, value V, bytes int64) {
	if it == nil {
		return
	}
	it.mutex.Lock()
	defer it.mutex.Unlock()
	if old, isThere := it.known[key]; isThere {
		it.drop(old)
	}
	bytes += overhead
	if bytes > it.limit {
		return
	}
	for it.bytes+bytes > it.limit {
		it.drop(it.order.Back())
	}
	it.bytes += bytes
	it.known[key] = it.order.PushFront(&entry[K, V]{key, value, bytes})
}

func (it *Cache[K, V]) drop(element *list.Element) {
	dropped := it.order.Remove(element).(*entry[K, V])
	delete(it.known, dropped.key)
	it.bytes -= dropped.bytes
}

// Size is how many entries there are, and how many bytes they take.
func (it *Cache[K, V]) Size() (entries int, bytes int64) {
	if it == nil {
		return 0, 0
	}
	it.mutex.Lock()
	defer it.mutex.Unlock()
	return it.order.Len(), it.bytes
}
