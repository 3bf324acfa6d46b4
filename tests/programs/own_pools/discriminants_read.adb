--  The discriminants of pools are read (RM 3.7, 13.11): by the Initialize and the Allocate of their type, where they are those of the pool
--  that the formal stands for; by the program, by a procedure with the pool as a formal; and for the discriminants of another pool. A
--  Storage_Count is told as the Integer that is counted up with it: each time that takes two objects, so the second pool is object 6.
with Ada.Text_IO;             use Ada.Text_IO;
with System;                  use System;
with System.Storage_Elements; use System.Storage_Elements;
with Block_Pools;             use Block_Pools;

procedure Discriminants_Read is
   type Pair is record
      A, B : Integer;
   end record;

   type Triple is record
      A, B, C : Integer;
   end record;

   type Pool is new Block_Pool with record
      Left : Storage_Count := 0;
   end record;

   overriding procedure Initialize (X : in out Pool);
   overriding procedure Allocate (X : in out Pool; A : out System.Address; S, L : in Storage_Count);

   function Number (Count : Storage_Count) return Integer is
      Counted : Storage_Count := 0;
      Result  : Integer := 0;
   begin
      while Counted < Count loop
         Counted := Counted + 1;
         Result := Result + 1;
      end loop;
      return Result;
   end Number;

   procedure Initialize (X : in out Pool) is
   begin
      X.Left := X.Block_Count;
      Put_Line (Integer'Image (Number (X.Block_Count)) & " of" & Integer'Image (Number (X.Block_Size)));
   end Initialize;

   procedure Allocate (X : in out Pool; A : out System.Address; S, L : in Storage_Count) is
   begin
      if S > X.Block_Size then
         Put_Line ("too large by" & Integer'Image (Number (S - X.Block_Size)));
      end if;
      Allocate (Block_Pool (X), A, S, L);
      X.Left := X.Left - 1;
      Put_Line ("left" & Integer'Image (Number (X.Left)) & " of" & Integer'Image (Number (X.Block_Count)));
   end Allocate;

   procedure Tell (X : in out Pool) is
   begin
      Put_Line ("units" & Integer'Image (Number (X.Block_Size * X.Block_Count)));
   end Tell;
begin
   declare
      P : Pool (Block_Size => 16, Block_Count => 3);
      Q : Pool (Block_Count => P.Block_Size / 8, Block_Size => 8 * P.Block_Count);
      R : Block_Pool (Q.Block_Size - 1, 2 * Q.Block_Count);

      type Small is access Pair with Storage_Pool => P;
      type Large is access Triple with Storage_Pool => P;
      type Other is access Triple with Storage_Pool => Q;

      A : Small;
      B : Large;
      C : Other;
   begin
      A := new Pair;
      C := new Triple;
      Put_Line (Boolean'Image (P.Block_Size < Q.Block_Size and then P.Left = P.Block_Count - 1) & Boolean'Image (Q.Left = Q.Block_Count));
      Put_Line (Integer'Image (Number (R.Block_Size)) & Integer'Image (Number (R.Block_Count)));
      Tell (P);
      Tell (Q);
      B := new Triple;
   exception
      when Storage_Error =>
         Put_Line ("refused");
   end;
end Discriminants_Read;
