--  A Deallocate that is wrong: it gives the block back to the library twice. The library takes back a block that is out and holds no object
--  (RM 13.11); an address that names none, as this one by then, stops the run as BAD_ADDRESS.
with Ada.Text_IO;             use Ada.Text_IO;
with Ada.Unchecked_Deallocation;
with System;
with System.Storage_Elements; use System.Storage_Elements;
with Block_Pools;             use Block_Pools;

procedure Returned_Twice is
   type Wrong_Pool is new Block_Pool with null record;

   overriding procedure Deallocate
     (Pool : in out Wrong_Pool; Storage_Address : in System.Address; Size, Alignment : in Storage_Count);

   type Point is record
      X, Y : Integer;
   end record;

   procedure Deallocate
     (Pool : in out Wrong_Pool; Storage_Address : in System.Address; Size, Alignment : in Storage_Count) is
   begin
      Deallocate (Block_Pool (Pool), Storage_Address, Size, Alignment);
      Put_Line ("given back");
      Deallocate (Block_Pool (Pool), Storage_Address, Size, Alignment);
      Put_Line ("given back again");
   end Deallocate;
begin
   declare
      Pool : Wrong_Pool (Block_Size => 16, Block_Count => 1);

      type Link is access Point with Storage_Pool => Pool;

      procedure Free is new Ada.Unchecked_Deallocation (Point, Link);

      A : Link;
   begin
      A := new Point;
      Free (A);
   end;
end Returned_Twice;
