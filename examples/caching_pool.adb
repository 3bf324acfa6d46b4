--  A pool whose Deallocate keeps the block of an object that was freed for the next Allocate, in place of giving it back to the library
--  (RM 13.11). One block is kept at a time; Allocate notes that it has handed it out, and the Finalize of the pool gives back what is kept.
--  Each object in a block is a new one: an access value to the one that was there before is a use of what is gone (RM 13.11.2).
with Ada.Text_IO;             use Ada.Text_IO;
with Ada.Unchecked_Deallocation;
with System;
with System.Storage_Elements; use System.Storage_Elements;
with Block_Pools;             use Block_Pools;

procedure Caching_Pool is
   type Cache_Pool is new Block_Pool with record
      Spare     : System.Address;
      Has_Spare : Boolean := False;
   end record;

   overriding procedure Allocate
     (Pool : in out Cache_Pool; Storage_Address : out System.Address; Size, Alignment : in Storage_Count);
   overriding procedure Deallocate
     (Pool : in out Cache_Pool; Storage_Address : in System.Address; Size, Alignment : in Storage_Count);
   overriding procedure Finalize (Pool : in out Cache_Pool);

   type Point is record
      X, Y : Integer;
   end record;

   procedure Allocate
     (Pool : in out Cache_Pool; Storage_Address : out System.Address; Size, Alignment : in Storage_Count) is
   begin
      if Pool.Has_Spare then
         Put_Line ("   from the cache");
         Storage_Address := Pool.Spare;
         Pool.Has_Spare := False;
      else
         Put_Line ("   from the library");
         Allocate (Block_Pool (Pool), Storage_Address, Size, Alignment);
      end if;
   end Allocate;

   procedure Deallocate
     (Pool : in out Cache_Pool; Storage_Address : in System.Address; Size, Alignment : in Storage_Count) is
   begin
      if Pool.Has_Spare then
         Put_Line ("   back to the library");
         Deallocate (Block_Pool (Pool), Storage_Address, Size, Alignment);
      else
         Put_Line ("   into the cache");
         Pool.Spare := Storage_Address;
         Pool.Has_Spare := True;
      end if;
   end Deallocate;

   procedure Finalize (Pool : in out Cache_Pool) is
   begin
      if Pool.Has_Spare then
         Put_Line ("the cache is emptied");
         Deallocate (Block_Pool (Pool), Pool.Spare, 16, 8);
      end if;
   end Finalize;
begin
   declare
      --  A point takes 16 storage units.
      Pool : Cache_Pool (Block_Size => 16, Block_Count => 2);

      type Link is access Point with Storage_Pool => Pool;

      procedure Free is new Ada.Unchecked_Deallocation (Point, Link);

      A, B : Link;
   begin
      A := new Point;
      Free (A);
      A := new Point;
      A.X := 1;
      Put_Line ("the first point");
      B := new Point;
      B.X := 2;
      Put_Line ("the second point; X of the first is" & Integer'Image (A.X));
      Free (A);
      Free (B);
   end;
end Caching_Pool;
