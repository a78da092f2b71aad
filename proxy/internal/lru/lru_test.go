package lru

import (
	"fmt"
	"sync"
	"testing"
)

func TestWhatWasNotUsedForTheLongestTimeGoesFirst(t *testing.T) {
	cache := New[string, int](3 * (overhead + 10))
	for at, key := range []string{"a", "b", "c"} {
		cache.Put(key, at, 10)
	}
	cache.Get("a")
	cache.Put("d", 3, 10)
	for key, wanted := range map[string]bool{"a": true, "b": false, "c": true, "d": true} {
		if _, isThere := cache.Get(key); isThere != wanted {
			t.Error(key, isThere)
		}
	}
	if entries, bytes := cache.Size(); entries != 3 || bytes != 3*(overhead+10) {
		t.Error(entries, bytes)
	}
}

func TestANewValueReplacesTheOldOneAndATooLongOneIsNotKept(t *testing.T) {
	cache := New[string, int](2 * overhead)
	cache.Put("a", 1, 10)
	cache.Put("a", 2, 20)
	if value, _ := cache.Get("a"); value != 2 {
		t.Error(value)
	}
	cache.Put("a", 3, overhead+1)
	if _, isThere := cache.Get("a"); isThere {
		t.Error("it is kept")
	}
	if entries, bytes := cache.Size(); entries != 0 || bytes != 0 {
		t.Error(entries, bytes)
	}
}

func TestNoCacheKeepsNothing(t *testing.T) {
	cache := New[string, int](0)
	cache.Put("a", 1, 0)
	if _, isThere := cache.Get("a"); isThere {
		t.Error("it is kept")
	}
}

func TestGoroutinesStayWithinTheBytes(t *testing.T) {
	cache := New[string, int](50 * overhead)
	var group sync.WaitGroup
	for routine := 0; routine < 8; routine++ {
		group.Add(1)
		go func(routine int) {
			defer group.Done()
			for at := 0; at < 1000; at++ {
				key := fmt.Sprint((at * 7) % 100)
				cache.Put(key, at, int64(at%300))
				cache.Get(key)
				if _, bytes := cache.Size(); bytes > 50*overhead {
					t.Error(bytes)
				}
			}
		}(routine)
	}
	group.Wait()
}
