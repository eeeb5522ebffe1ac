//! The proved managers behind the trait that pingora-cache asks of an eviction manager, as a cache that knows it by the trait alone
//! would use them.

use pcache::{hash_key, Error, EvictionManager, Key, Manager, SharedManager};
use std::time::{Duration, SystemTime};

fn key(name: &str) -> Key {
    Key { primary: hash_key(name.as_bytes()), ..Key::default() }
}

fn use_it(manager: &dyn EvictionManager) {
    let fresh_until = SystemTime::now() + Duration::from_secs(60);
    assert!(manager.admit(key("a"), 2, fresh_until).is_empty());
    assert!(manager.admit(key("b"), 2, fresh_until).is_empty());
    assert!(manager.access(&key("a"), 2, fresh_until));
    assert_eq!(manager.admit(key("c"), 1, fresh_until), [key("b")]);
    assert_eq!(manager.increment_weight(&key("c"), 2, None), [key("a")]);
    assert!(!manager.peek(&key("a")));
    manager.remove(&key("c"));
    println!(
        "size {} items {} evicted {}/{}",
        manager.total_size(), manager.total_items(), manager.evicted_size(), manager.evicted_items()
    );
}

fn main() -> Result<(), Error> {
    use_it(&SharedManager::new(Manager::simple(&[7; 16], 4, 0)?));
    use_it(&SharedManager::new(Manager::sharded(&[7; 16], 4, 0)?));
    Ok(())
}
