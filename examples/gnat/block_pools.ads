--  Block_Pools for GNAT: pools of blocks of one size, as adactl has them in its library (docs/pools.md), over Ada's own storage pools
--  (RM 13.11). It is for running the programs of examples/ elsewhere, and no part of adactl.
with System;
with System.Storage_Elements; use System.Storage_Elements;
with System.Storage_Pools;    use System.Storage_Pools;

package Block_Pools is

   --  The limits of adactl. A discriminant out of range raises Constraint_Error.
   subtype Block_Sizes is Storage_Count range 8 .. 4_096;
   subtype Block_Counts is Storage_Count range 1 .. 65_536;

   type Block_Pool (Block_Size : Block_Sizes; Block_Count : Block_Counts) is new Root_Storage_Pool with private;

   --  Storage_Error where no block is free, or where the request is larger than a block.
   overriding procedure Allocate
     (Pool                     : in out Block_Pool;
      Storage_Address          : out System.Address;
      Size_In_Storage_Elements : in Storage_Count;
      Alignment                : in Storage_Count);

   --  Program_Error where no block with this address is out: there adactl stops the run.
   overriding procedure Deallocate
     (Pool                     : in out Block_Pool;
      Storage_Address          : in System.Address;
      Size_In_Storage_Elements : in Storage_Count;
      Alignment                : in Storage_Count);

   overriding function Storage_Size (Pool : Block_Pool) return Storage_Count;

private
   --  A block that is out is an array of the heap; one that is free is null.
   type Block is access Storage_Array;
   type Blocks is array (Storage_Count range <>) of Block;

   --  It needs no Initialize: a type that extends it has one of its own, which would have to call it.
   type Block_Pool (Block_Size : Block_Sizes; Block_Count : Block_Counts) is new Root_Storage_Pool with record
      Taken : Blocks (1 .. Block_Count);
   end record;
end Block_Pools;
