/*
 * The names of the kernel that the modules of `pm_lab kernel` use, with their types, as far as a compiler looks at them. It
 * stands in place of a kernel's headers where .ci/modules compiles a module. It does nothing.
 */
#pragma once

#define KERNEL_VERSION(a, b, c) (((a) << 16) + ((b) << 8) + (c))
#define STUB_VERSION(...) STUB_VERSION_OF(__VA_ARGS__)
#define STUB_VERSION_OF(major, minor) KERNEL_VERSION(major, minor, 0)
#define LINUX_VERSION_CODE STUB_VERSION(STUB_EDITION)

#define NULL ((void *)0)
#define HZ 250
#define bool _Bool
#define true 1
#define false 0
typedef unsigned long size_t;
typedef unsigned int u32;
typedef long long ktime_t;
typedef __builtin_va_list va_list;
#define va_start(args, last) __builtin_va_start(args, last)
#define va_end(args) __builtin_va_end(args)

#define noinline __attribute__((noinline))
#define __noclone __attribute__((noclone))
#define __init
#define __exit
#define __printf(format_at, first) __attribute__((format(printf, format_at, first)))
#define ARRAY_SIZE(array) (sizeof(array) / sizeof((array)[0]))
#define container_of(pointer, type, member) ((type *)((char *)(pointer) - __builtin_offsetof(type, member)))
#define READ_ONCE(value) (*(const volatile __typeof__(value) *)&(value))
#define WRITE_ONCE(place, value) (*(volatile __typeof__(place) *)&(place) = (value))
#define smp_load_acquire(place) (*(place))
#define smp_store_release(place, value) (*(place) = (value))
#define module_init(function) int init_module(void) { return function(); }
#define module_exit(function) void cleanup_module(void) { function(); }
#define MODULE_LICENSE(text) _Static_assert(sizeof(text) > 1, "a license")
#define MODULE_DESCRIPTION(text) _Static_assert(sizeof(text) > 1, "a description")

enum { ENOMEM = 12, ENODEV = 19, EINVAL = 22 };
enum { GFP_KERNEL = 1, TASK_IDLE = 0x402, HRTIMER_MODE_ABS = 0 };
enum { DL_FLAG_STATELESS = 1, DL_FLAG_PM_RUNTIME = 4, GENPD_FLAG_ALWAYS_ON = 4 };

int printk(const char *format, ...) __attribute__((format(printf, 1, 2)));
#define pr_info(...) printk(__VA_ARGS__)
#define pr_warn(...) printk(__VA_ARGS__)
#define pr_err(...) printk(__VA_ARGS__)
#define trace_printk(...) printk(__VA_ARGS__)
int vscnprintf(char *text, size_t size, const char *format, va_list args);

typedef struct { int counter; } atomic_t;
#define ATOMIC_INIT(count) { count }
int atomic_read(const atomic_t *count);
void atomic_inc(atomic_t *count);
void atomic_dec(atomic_t *count);
bool atomic_dec_and_test(atomic_t *count);

extern unsigned long jiffies;
#define time_after(a, b) ((long)((b) - (a)) < 0)
void msleep(unsigned int ms);
ktime_t ktime_get(void);
ktime_t ktime_add_ms(ktime_t time, unsigned long long ms);
int schedule_hrtimeout(ktime_t *until, int mode);
void set_current_state(int state);

struct completion { unsigned int done; };
#define DECLARE_COMPLETION(name) struct completion name = { 0 }
void init_completion(struct completion *completion);
void complete(struct completion *completion);
void wait_for_completion(struct completion *completion);
unsigned long wait_for_completion_timeout(struct completion *completion, unsigned long ticks);

struct task_struct;
struct task_struct *kthread_create(int (*function)(void *), void *data, const char *name, ...)
	__attribute__((format(printf, 3, 4)));
int kthread_stop(struct task_struct *task);
int wake_up_process(struct task_struct *task);
struct task_struct *get_task_struct(struct task_struct *task);
void put_task_struct(struct task_struct *task);
bool IS_ERR(const void *pointer);
long PTR_ERR(const void *pointer);

struct module;
#define THIS_MODULE ((struct module *)0)
void __module_get(struct module *module);
void *kzalloc(size_t size, int flags);
void *kcalloc(size_t count, size_t size, int flags);
void kfree(const void *object);

struct workqueue_struct;
extern struct workqueue_struct *pm_wq;
void flush_workqueue(struct workqueue_struct *queue);

typedef struct { int locked; } spinlock_t;
#define spin_lock_irqsave(lock, flags) ((flags) = stub_lock(lock))
unsigned long stub_lock(spinlock_t *lock);
void spin_unlock_irqrestore(spinlock_t *lock, unsigned long flags);

enum rpm_status { RPM_INVALID = -1, RPM_ACTIVE = 0, RPM_RESUMING, RPM_SUSPENDED, RPM_SUSPENDING };
struct dev_pm_info {
	spinlock_t lock;
	atomic_t usage_count;
	unsigned long long timer_expires;
	bool request_pending, idle_notification;
	enum rpm_status runtime_status;
};
struct device;
struct device_driver;
struct dev_pm_ops {
	int (*runtime_suspend)(struct device *dev);
	int (*runtime_resume)(struct device *dev);
	int (*runtime_idle)(struct device *dev);
};
#define SET_RUNTIME_PM_OPS(suspend, resume, idle) \
	.runtime_suspend = suspend, .runtime_resume = resume, .runtime_idle = idle,
struct bus_type {
	const char *name;
#if LINUX_VERSION_CODE < KERNEL_VERSION(6, 11, 0)
	int (*match)(struct device *dev, struct device_driver *driver);
#else
	int (*match)(struct device *dev, const struct device_driver *driver);
#endif
};
struct device_driver {
	const char *name;
	struct bus_type *bus;
	struct module *owner;
	const struct dev_pm_ops *pm;
};
struct device {
	struct device *parent;
	struct bus_type *bus;
	struct device_driver *driver;
	struct dev_pm_info power;
	void (*release)(struct device *dev);
};
struct attribute_group;
struct device_link;
int subsys_virtual_register(struct bus_type *bus, const struct attribute_group **groups);
void bus_unregister(struct bus_type *bus);
int driver_register(struct device_driver *driver);
void driver_unregister(struct device_driver *driver);
void device_initialize(struct device *dev);
int dev_set_name(struct device *dev, const char *format, ...) __attribute__((format(printf, 2, 3)));
int device_add(struct device *dev);
void device_unregister(struct device *dev);
void put_device(struct device *dev);
struct device_link *device_link_add(struct device *consumer, struct device *supplier, u32 flags);
void device_link_remove(void *consumer, struct device *supplier);

struct dev_power_governor;
struct generic_pm_domain {
	struct device dev;
	const char *name;
	u32 flags;
	int (*power_on)(struct generic_pm_domain *genpd);
	int (*power_off)(struct generic_pm_domain *genpd);
};
int pm_genpd_init(struct generic_pm_domain *genpd, struct dev_power_governor *governor, bool is_off);
int pm_genpd_remove(struct generic_pm_domain *genpd);
int pm_genpd_add_device(struct generic_pm_domain *genpd, struct device *dev);
int pm_genpd_remove_device(struct device *dev);
int pm_genpd_add_subdomain(struct generic_pm_domain *genpd, struct generic_pm_domain *below);
int pm_genpd_remove_subdomain(struct generic_pm_domain *genpd, struct generic_pm_domain *below);

int pm_runtime_get_sync(struct device *dev);
int pm_runtime_get(struct device *dev);
void pm_runtime_get_noresume(struct device *dev);
int pm_runtime_get_if_in_use(struct device *dev);
#if LINUX_VERSION_CODE < KERNEL_VERSION(6, 9, 0)
int pm_runtime_get_if_active(struct device *dev, bool ign_usage_count);
#else
int pm_runtime_get_if_active(struct device *dev);
#endif
int pm_runtime_resume(struct device *dev);
int pm_request_resume(struct device *dev);
int pm_runtime_put(struct device *dev);
int pm_runtime_put_sync(struct device *dev);
void pm_runtime_put_noidle(struct device *dev);
int pm_runtime_put_autosuspend(struct device *dev);
int pm_runtime_put_sync_suspend(struct device *dev);
int pm_runtime_put_sync_autosuspend(struct device *dev);
int pm_runtime_idle(struct device *dev);
int pm_request_idle(struct device *dev);
int pm_runtime_suspend(struct device *dev);
int pm_runtime_autosuspend(struct device *dev);
int pm_request_autosuspend(struct device *dev);
int pm_schedule_suspend(struct device *dev, unsigned int ms);
void pm_runtime_enable(struct device *dev);
void pm_runtime_disable(struct device *dev);
bool pm_runtime_enabled(struct device *dev);
int pm_runtime_barrier(struct device *dev);
int pm_runtime_set_active(struct device *dev);
int pm_runtime_set_suspended(struct device *dev);
void pm_runtime_allow(struct device *dev);
void pm_runtime_forbid(struct device *dev);
void pm_runtime_mark_last_busy(struct device *dev);
void pm_runtime_use_autosuspend(struct device *dev);
void pm_runtime_dont_use_autosuspend(struct device *dev);
void pm_runtime_set_autosuspend_delay(struct device *dev, int ms);
void pm_runtime_no_callbacks(struct device *dev);
void pm_suspend_ignore_children(struct device *dev, bool enable);
