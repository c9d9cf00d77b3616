//! aes 0.9's names over aes 0.6. While a party runs, encryption gives the recorded Blocks of r:
//! that is how they reach `AesRng`. With nothing recorded it is AES.
use aes06::cipher::{BlockCipher, NewBlockCipher, generic_array::GenericArray};

pub mod cipher {
    use bytemuck::{Pod, Zeroable};

    pub mod array {
        pub trait ArraySize: 'static {
            type ArrayType<T: Copy + 'static>: Copy;
        }

        pub mod sizes {
            #[derive(Clone, Copy)]
            pub struct U16;

            impl super::ArraySize for U16 {
                type ArrayType<T: Copy + 'static> = [T; 16];
            }
        }
    }

    #[derive(Clone, Copy)]
    #[repr(transparent)]
    pub struct Array<T: Copy + 'static, U: array::ArraySize>(pub U::ArrayType<T>);

    unsafe impl Zeroable for Array<u8, array::sizes::U16> {}
    unsafe impl Pod for Array<u8, array::sizes::U16> {}

    pub trait KeyInit {
        fn new(key: &super::Block) -> Self;
    }

    pub trait BlockCipherEncrypt {
        fn encrypt_blocks(&self, blocks: &mut [super::Block]);
    }
}

pub type Block = cipher::Array<u8, cipher::array::sizes::U16>;

#[derive(Clone)]
pub struct Aes128(aes06::Aes128);

impl cipher::KeyInit for Aes128 {
    fn new(key: &Block) -> Self {
        Self(aes06::Aes128::new(GenericArray::from_slice(&key.0)))
    }
}

impl cipher::BlockCipherEncrypt for Aes128 {
    fn encrypt_blocks(&self, blocks: &mut [Block]) {
        for block in blocks {
            match recorded::r_block() {
                Some(r) => block.0 = r,
                None => self
                    .0
                    .encrypt_block(GenericArray::from_mut_slice(&mut block.0)),
            }
        }
    }
}
