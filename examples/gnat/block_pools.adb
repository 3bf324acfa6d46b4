with Ada.Unchecked_Deallocation;

package body Block_Pools is
   use type System.Address;

   procedure Free is new Ada.Unchecked_Deallocation (Storage_Array, Block);

   --  GNAT puts two addresses, and what aligns them, before an object that needs finalization, and asks the pool for them too. A block has
   --  room for these besides its size, so that a program needs no other sizes here.
   Hidden : constant Storage_Count := 32;

   overriding procedure Allocate
     (Pool                     : in out Block_Pool;
      Storage_Address          : out System.Address;
      Size_In_Storage_Elements : in Storage_Count;
      Alignment                : in Storage_Count)
   is
      pragma Unreferenced (Alignment);
   begin
      if Size_In_Storage_Elements > Pool.Block_Size + Hidden then
         raise Storage_Error;
      end if;
      for I in Pool.Taken'Range loop
         if Pool.Taken (I) = null then
            Pool.Taken (I) := new Storage_Array (1 .. Pool.Block_Size + Hidden);
            Storage_Address := Pool.Taken (I) (1)'Address;
            return;
         end if;
      end loop;
      raise Storage_Error;
   end Allocate;

   overriding procedure Deallocate
     (Pool                     : in out Block_Pool;
      Storage_Address          : in System.Address;
      Size_In_Storage_Elements : in Storage_Count;
      Alignment                : in Storage_Count)
   is
      pragma Unreferenced (Size_In_Storage_Elements, Alignment);
   begin
      for I in Pool.Taken'Range loop
         if Pool.Taken (I) /= null and then Pool.Taken (I) (1)'Address = Storage_Address then
            Free (Pool.Taken (I));
            return;
         end if;
      end loop;
      raise Program_Error with "no block of this address is out";
   end Deallocate;

   overriding function Storage_Size (Pool : Block_Pool) return Storage_Count is (Pool.Block_Size * Pool.Block_Count);
end Block_Pools;
