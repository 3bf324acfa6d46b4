--  Addresses are compared with one another and with Null_Address, and are given to functions and by them: those of two
--  blocks that are out differ, and one that is taken anew differs from that which was given back (RM 13.7, 13.11).
with Ada.Text_IO;             use Ada.Text_IO;
with Ada.Unchecked_Deallocation;
with System;                  use System;
with System.Storage_Elements; use System.Storage_Elements;
with Block_Pools;             use Block_Pools;

procedure Addresses_Compared is
   type K is new Block_Pool with record
      First, Last : Address;
   end record;

   overriding procedure Allocate (X : in out K; A : out Address; S, L : in Storage_Count);
   overriding procedure Deallocate (X : in out K; A : in Address; S, L : in Storage_Count);

   function Is_Null (A : Address) return Boolean is
   begin
      return Null_Address = A;
   end Is_Null;

   function First_Of (Old, Other : Address) return Address is
   begin
      if Is_Null (Old) then
         return Other;
      end if;
      return Old;
   end First_Of;

   procedure Allocate (X : in out K; A : out Address; S, L : in Storage_Count) is
   begin
      Put_Line (Boolean'Image (A = Null_Address) & Boolean'Image (Is_Null (X.Last)));
      Allocate (Block_Pool (X), A, S, L);
      X.First := First_Of (X.First, A);
      X.Last := A;
   end Allocate;

   procedure Deallocate (X : in out K; A : in Address; S, L : in Storage_Count) is
   begin
      Put_Line (Boolean'Image (A = X.First) & Boolean'Image (A /= X.Last));
      Deallocate (Block_Pool (X), A, S, L);
   end Deallocate;
begin
   declare
      P : K (16, 2);

      type Ref is access Integer with Storage_Pool => P;

      procedure Free is new Ada.Unchecked_Deallocation (Integer, Ref);

      V, W : Ref;
   begin
      V := new Integer;
      Put_Line (Boolean'Image (P.First = P.Last));
      W := new Integer;
      Put_Line (Boolean'Image (P.First = P.Last));
      Free (V);
      V := new Integer;
      Put_Line (Boolean'Image (P.First = P.Last));
      Free (V);
      Free (W);
   end;
end Addresses_Compared;
