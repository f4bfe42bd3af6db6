//! Stand-in for pin-project-lite: `pin_project!` for a struct of one pinned and one plain field.
#![no_std]

/// Declares the struct and gives it `project`. It is Unpin exactly if its pinned field is.
#[macro_export]
macro_rules! pin_project {
    (
        $(#[$attribute:meta])*
        $visible:vis struct $name:ident<$param:ident> {
            #[pin]
            $pinned_visible:vis $pinned:ident: $pinned_type:ty,
            $plain_visible:vis $plain:ident: $plain_type:ty $(,)?
        }
    ) => {
        $(#[$attribute])*
        $visible struct $name<$param> {
            $pinned_visible $pinned: $pinned_type,
            $plain_visible $plain: $plain_type,
        }

        const _: () = {
            $visible struct Projection<'__pin, $param> {
                $pinned_visible $pinned: ::core::pin::Pin<&'__pin mut $pinned_type>,
                $plain_visible $plain: &'__pin mut $plain_type,
            }

            impl<$param> $name<$param> {
                #[inline]
                $visible fn project<'__pin>(
                    self: ::core::pin::Pin<&'__pin mut Self>,
                ) -> Projection<'__pin, $param> {
                    // SAFETY: the pinned field is not moved.
                    unsafe {
                        let this = self.get_unchecked_mut();
                        Projection {
                            $pinned: ::core::pin::Pin::new_unchecked(&mut this.$pinned),
                            $plain: &mut this.$plain,
                        }
                    }
                }
            }
        };
    };
}
